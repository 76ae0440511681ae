//! The listing program with the model as its plan: lines from standard input, an answer for each.

use cases::plan;
use std::io::{Read, stdin};

fn main() {
    let mut input = Vec::new();
    stdin().read_to_end(&mut input).expect("the lines are read");
    print!("{}", plan::listing(&input));
}

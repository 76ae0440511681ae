//! A gigabyte of lines through the program, and through the model. Arguments: a seed, and how many megabytes.

use cases::program::through;
use cases::random::{Random, SEED};

fn main() {
    let number = |k: usize, other: u64| {
        let given = std::env::args().nth(k);
        given.map_or(other, |a| a.parse().expect("a number"))
    };
    match through(&mut Random::new(number(1, SEED)), number(2, 1024) << 20) {
        Ok(lines) => println!("{lines} lines, no difference"),
        Err(difference) => {
            println!("{difference}");
            std::process::exit(1);
        }
    }
}

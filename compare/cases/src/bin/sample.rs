//! Prints a stored sample of the Rust's answers, one module after another: that of the program replay, or with the argument
//! 'calls' that of replay_calls. With the argument 'plan' it is the model's, that of replay_plan.

use cases::random::{Random, SEED};
use cases::{accounting, align, footprint, freemap, layout, plan, regionmap, settle, sort, stored};

const HEAD: &str = ", a case a line. Made by compare/sample.
-- How many numbers the case has: its module's number; what is asked = what is answered. A list is its length and its numbers, and one at the end its numbers.
";

type Sample = fn(&mut Random) -> String;

fn main() {
    let single: [Sample; 5] = [
        align::sample,
        sort::sample,
        footprint::sample,
        settle::sample,
        layout::sample,
    ];
    let calls: [Sample; 3] = [regionmap::sample, freemap::sample, accounting::sample];
    let plan: [Sample; 1] = [plan::sample];
    let (side, modules) = match std::env::args().nth(1).as_deref() {
        Some("calls") => ("the Rust", &calls[..]),
        Some("plan") => ("the model", &plan[..]),
        _ => ("the Rust", &single[..]),
    };
    let mut text = format!("-- What {side} answers{HEAD}");
    for sample in modules {
        text += &sample(&mut Random::new(SEED));
    }
    stored::print(&text);
}

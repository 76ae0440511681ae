//! Runs both sides on the same inputs. Arguments: a seed, and a module if not all are run.

use cases::random::{Random, SEED};
use cases::{
    accounting, align, footprint, freemap, layout, plan, program, regionmap, settle, sort,
};
use std::process::ExitCode;

type Compare = fn(&mut Random) -> Result<usize, String>;

fn main() -> ExitCode {
    let seed = std::env::args()
        .nth(1)
        .map_or(SEED, |a| a.parse().expect("the seed is a number"));
    println!("seed {seed}");
    let modules: [(&str, Compare); 10] = [
        ("align", align::compare),
        ("sort", sort::compare),
        ("footprint", footprint::compare),
        ("regionmap", regionmap::compare),
        ("settle", settle::compare),
        ("freemap", freemap::compare),
        ("accounting", accounting::compare),
        ("plan", plan::compare),
        ("layout", layout::compare),
        ("listing", program::compare),
    ];
    let only = std::env::args().nth(2);
    for (name, compare) in modules {
        if only.as_ref().is_some_and(|only| only != name) {
            continue;
        }
        match compare(&mut Random::new(seed)) {
            Ok(cases) => println!("{name}: {cases} cases, no difference"),
            Err(difference) => {
                println!("{name}: {difference}");
                return ExitCode::FAILURE;
            }
        }
    }
    ExitCode::SUCCESS
}

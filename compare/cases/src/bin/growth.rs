//! Ours by the size of the input: that time grows as n log n, or less. Arguments: a seed, and a module.

use cases::random::{Random, SEED};
use cases::{footprint, freemap, plan, program, regionmap, settle, sort, table};

fn main() {
    let seed = std::env::args()
        .nth(1)
        .map_or(SEED, |a| a.parse().expect("the seed is a number"));
    let modules: [(&str, fn(&mut Random)); 7] = [
        ("sort", sort::growth),
        ("footprint", footprint::growth),
        ("regionmap", regionmap::growth),
        ("settle", settle::growth),
        ("freemap", freemap::growth),
        ("plan", plan::growth),
        ("listing", program::growth),
    ];
    let only = std::env::args().nth(2);
    table::growth_head();
    for (name, growth) in modules {
        if only.as_ref().is_none_or(|only| only == name) {
            growth(&mut Random::new(seed));
        }
    }
}

//! Times both sides on the same inputs in one run. Arguments: a seed, and a module if not all are timed.

use cases::random::{Random, SEED};
use cases::{
    accounting, align, footprint, freemap, layout, plan, program, regionmap, settle, sort, table,
};

fn main() {
    let seed = std::env::args()
        .nth(1)
        .map_or(SEED, |a| a.parse().expect("the seed is a number"));
    let modules: [(&str, fn(&mut Random)); 10] = [
        ("align", align::bench),
        ("sort", sort::bench),
        ("footprint", footprint::bench),
        ("regionmap", regionmap::bench),
        ("settle", settle::bench),
        ("freemap", freemap::bench),
        ("accounting", accounting::bench),
        ("plan", plan::bench),
        ("layout", layout::bench),
        ("listing", program::bench),
    ];
    let only = std::env::args().nth(2);
    table::head();
    for (name, bench) in modules {
        if only.as_ref().is_none_or(|only| only == name) {
            bench(&mut Random::new(seed));
        }
    }
}

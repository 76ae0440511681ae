//! Lists of ranges of each kind that a settlement may treat in its own way.

use crate::random::Random;

const BLOCK: u64 = 4096;

pub const SHAPES: [&str; 9] = [
    "disjoint",
    "touching",
    "touching but for a few",
    "each meets about 1",
    "each meets about 64",
    "all nested",
    "all identical",
    "staircase",
    "mass expiry",
];

/// n ranges of the shape that the name says, in ascending order or as drawn.
pub fn shape(name: &str, n: usize, random: &mut Random) -> Vec<(u64, u64)> {
    let many = n as u64;
    // n blocks within so many bytes a range
    let mut within = |each: u64| -> Vec<(u64, u64)> {
        let drawn = (0..n).map(|_| (random.below((each * many).max(1)), BLOCK));
        drawn.collect()
    };
    let places = 0..many;
    match name {
        "disjoint" => places.map(|i| (i * 2 * BLOCK, BLOCK)).collect(),
        "touching" => places.map(|i| (i * BLOCK, BLOCK)).collect(),
        "touching but for a few" => {
            let mut ranges = shape("touching", n, random);
            for _ in 0..n.min(8) {
                ranges[random.below(many) as usize].1 += 1;
            }
            ranges
        }
        "each meets about 1" => within(2 * BLOCK),
        "each meets about 64" => within(2 * BLOCK / 64),
        "all nested" => places.map(|i| (i, 2 * (many - i))).collect(),
        "all identical" => vec![(BLOCK, BLOCK); n],
        // each begins and ends one byte after the one before
        "staircase" => places.map(|i| (i, many)).collect(),
        // the first half ends where the second begins, whose ranges are long
        "mass expiry" => {
            let half = many / 2;
            let one = |i: u64| {
                if i < half {
                    (i, half - i)
                } else {
                    (i, 2 * many)
                }
            };
            places.map(one).collect()
        }
        other => panic!("no shape {other}"),
    }
}

pub fn shuffle<T>(list: &mut [T], random: &mut Random) {
    for i in (1..list.len()).rev() {
        list.swap(i, random.below(i as u64 + 1) as usize);
    }
}

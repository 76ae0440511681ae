//! The free map's times.

use crate::flat::{flat, pairs};
use crate::random::Random;
use crate::table::{grows, median, row, slowest};
use oracle::free::Free;
use ours::free::Map;
use std::cell::RefCell;
use std::hint::black_box;

const BLOCK: u64 = 4096;

/// The container's length, far past all ranges.
const LEN: u64 = 1 << 62;

const SHAPES: [&str; 4] = ["random", "disjoint", "touching", "overlapping"];

/// n ranges of the shape that the name says; those that are disjoint or touch are in order.
fn shape(name: &str, n: usize, random: &mut Random) -> Vec<(u64, u64)> {
    let many = n as u64;
    match name {
        "random" => (0..n)
            .map(|_| (random.next() >> 2, random.below(1 << 40)))
            .collect(),
        "disjoint" => (0..many).map(|i| ((2 * i + 2) * BLOCK, BLOCK)).collect(),
        "touching" => (0..many).map(|i| ((i + 1) * BLOCK, BLOCK)).collect(),
        // each meets about one other
        "overlapping" => (0..n)
            .map(|_| {
                (
                    random.below(2 * many) * BLOCK,
                    (1 + random.below(2)) * BLOCK,
                )
            })
            .collect(),
        other => panic!("no shape {other}"),
    }
}

/// The ranges are made before. The Rust makes its list of gaps and lengthens it as they come, which is
/// part of its time; ours has its list lent. No gap but the last is found where ranges touch.
fn times(name: &str, n: usize, rounds: usize, seed: u64) -> (f64, f64) {
    // each round draws its own ranges, the same for both, so that no predictor learns them
    let drawn = RefCell::new(Random::new(seed));
    let fresh = || shape(name, n, &mut drawn.borrow_mut());
    let rust = median(
        rounds,
        || (fresh(), None),
        |(ranges, free)| *free = Some(Free::complement(BLOCK, LEN, ranges)),
    );
    drawn.replace(Random::new(seed));
    let mut gaps = vec![1; 2 * (n + 1)];
    let mine = median(
        rounds,
        || (flat(&fresh()), Map { count: 0, tail: 0 }),
        |(ranges, map)| {
            let refusal = ours::free::complement(BLOCK, LEN, ranges, &mut gaps, map);
            assert_eq!(refusal, 0);
        },
    );
    (rust, mine)
}

fn complement(many: &str, name: &str, n: usize, rounds: usize, seed: u64) {
    let (rust, mine) = times(name, n, rounds, seed);
    row(&format!("complement of {many} ranges, {name}"), rust, mine);
}

pub fn growth(random: &mut Random) {
    let sizes = [1000, 4096, 16_384, 65_536];
    grows("complement, the slowest of all shapes", &sizes, |n| {
        let each = SHAPES.map(|name| times(name, n, 21, random.next()).1);
        slowest(&each)
    });
}

/// A map of n gaps of so many bytes, each a byte behind a block's start; the last is longer and starts
/// with a block. And its list.
fn of_gaps(n: usize, bytes: u64) -> (Free, Map, Vec<u64>) {
    let start = |i: u64| i * 4 * BLOCK + 1;
    let last = n as u64 - 1;
    let mut ranges: Vec<(u64, u64)> = (0..last)
        .map(|i| (start(i) + bytes, 4 * BLOCK - bytes))
        .collect();
    ranges.push((start(last), 4 * BLOCK - 1));
    let len = start(last) + 8 * BLOCK;
    let (mut map, mut gaps) = (Map { count: 0, tail: 0 }, vec![0; 2 * (n + 1)]);
    let refusal = ours::free::complement(1, len, &mut flat(&ranges), &mut gaps, &mut map);
    assert_eq!((refusal, map.count), (0, n));
    let free = Free::complement(1, len, &mut ranges);
    assert_eq!(free.gaps(), pairs(&gaps[..2 * n]));
    (free, map, gaps)
}

/// One of so many calls in a row.
fn one(calls: usize, mut call: impl FnMut()) -> f64 {
    let many = |_: &mut ()| (0..calls).for_each(|_| call());
    median(41, || (), many) / calls as f64
}

/// Only the last of the gaps has a place for two blocks at a block's start.
fn first_fit(others: &str, bytes: u64) {
    let n = 2000;
    let (free, map, gaps) = of_gaps(n, bytes);
    let (len, align) = (2 * BLOCK, BLOCK);
    let place = Some(gaps[2 * (n - 1)]);
    let rust = one(200, || {
        let found = black_box(&free).first_fit(black_box(len), black_box(align), black_box(0));
        assert_eq!(found, place);
    });
    let mine = one(200, || {
        let found = ours::free::first_fit(&map, black_box(&gaps), len, align, 0);
        assert_eq!(found, (0, place));
    });
    row(&format!("first_fit in 2,000 gaps, {others}"), rust, mine);
}

fn free_bytes(many: &str, n: usize, calls: usize) {
    let (free, map, gaps) = of_gaps(n, BLOCK);
    let bytes = free.free_bytes();
    let rust = one(calls, || {
        assert_eq!(black_box(&free).free_bytes(), bytes);
    });
    let mine = one(calls, || {
        let sum = ours::free::free_bytes(&map, black_box(&gaps));
        assert_eq!(sum, (0, bytes));
    });
    row(&format!("free_bytes of {many} gaps"), rust, mine);
}

pub fn bench(random: &mut Random) {
    for (many, n, rounds) in [("4,000", 4000, 101), ("65,536", 65_536, 21)] {
        for name in SHAPES {
            complement(many, name, n, rounds, random.next());
        }
    }
    first_fit("all too short", BLOCK);
    first_fit("none aligned", 3 * BLOCK - 2);
    free_bytes("2,000", 2000, 200);
    free_bytes("65,536", 65_536, 8);
}

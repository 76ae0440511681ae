//! `align_up`.

use crate::random::{Random, limits};
use crate::shrink::shrink;
use crate::table::{median, row};
use std::hint::black_box;

fn differs(input: &[u64]) -> bool {
    ours::align_up(input[0], input[1]) != oracle::align::align_up(input[0], input[1])
}

fn check(value: u64, align: u64) -> Result<(), String> {
    if !differs(&[value, align]) {
        return Ok(());
    }
    let small = shrink(vec![value, align], 0, differs);
    Err(format!(
        "align_up({}, {}): the Rust answers {:?}, ours {:?}",
        small[0],
        small[1],
        oracle::align::align_up(small[0], small[1]),
        ours::align_up(small[0], small[1])
    ))
}

/// How many cases ran, or the smallest input on which the two differ.
pub fn compare(random: &mut Random) -> Result<usize, String> {
    let mut cases = 0;
    for value in limits() {
        for align in limits() {
            check(value, align)?;
            cases += 1;
        }
    }
    for value in 0..=300 {
        for align in 0..=300 {
            check(value, align)?;
            cases += 1;
        }
    }
    for _ in 0..1_000_000 {
        let align = 1 << random.below(64);
        check(random.sized(), align)?;
        check(random.next(), align)?;
        check(u64::MAX - random.sized(), align)?;
        check(random.sized(), random.sized())?;
        cases += 4;
    }
    for _ in 0..2000 {
        let n = random.below(40) as usize;
        let numbers: Vec<u64> = (0..n).map(|_| random.sized()).collect();
        let found = ours::align_up_each(&numbers);
        if found != highest(&numbers) {
            return Err(format!("align_up_each({numbers:?}) is {found}"));
        }
        cases += 1;
    }
    Ok(cases)
}

/// Lines `align_up 1: value align = some place`.
pub fn sample(random: &mut Random) -> String {
    let mut text = String::from(
        "-- align.rs: value, align = whether there is a place (one or zero), the place.\n",
    );
    let mut inputs = vec![
        (4097, 4096),
        (u64::MAX, 2),
        (0, 0),
        (0, 1),
        (u64::MAX, 1),
        (5000, 4096),
        (8192, 4096),
        (1, 3),
    ];
    for k in 0..64 {
        let align = 1u64 << k;
        inputs.push((random.sized(), align));
        inputs.push((u64::MAX - align, align));
        inputs.push((u64::MAX - (align - 1), align));
        inputs.push(((u64::MAX - (align - 1)).saturating_add(1), align));
        inputs.push((random.sized(), align.wrapping_add(1)));
    }
    for (value, align) in inputs {
        let r = oracle::align::align_up(value, align);
        text += &format!(
            "align_up 1: {value} {align} = {} {}\n",
            u64::from(r.is_some()),
            r.unwrap_or(0)
        );
    }
    text
}

/// The greatest place of pairs of a value and an align, by the Rust.
fn highest(numbers: &[u64]) -> u64 {
    let places = numbers
        .chunks_exact(2)
        .map(|p| oracle::align::align_up(p[0], p[1]).unwrap_or(0));
    places.fold(0, u64::max)
}

/// Of pairs one after another, in a loop on each side; and one call at a time, over the border of the languages.
pub fn bench(random: &mut Random) {
    let n = 1 << 16;
    for (name, any_align) in [
        ("align_up, a power of two", false),
        ("align_up, any align", true),
    ] {
        let inputs: Vec<u64> = (0..n)
            .flat_map(|_| {
                let align = match any_align {
                    true => random.sized(),
                    false => 1 << random.below(64),
                };
                [random.sized(), align]
            })
            .collect();
        let due = highest(&inputs);
        let each = |f: fn(&[u64]) -> u64| {
            median(41, || (), |()| assert_eq!(f(black_box(&inputs)), due)) / n as f64
        };
        row(name, each(highest), each(ours::align_up_each));
        let one = |f: fn(u64, u64) -> Option<u64>| {
            let all = |_: &mut ()| {
                for pair in inputs.chunks_exact(2) {
                    black_box(f(black_box(pair[0]), black_box(pair[1])));
                }
            };
            median(41, || (), all) / n as f64
        };
        row(
            "  a call at a time",
            one(oracle::align::align_up),
            one(ours::align_up),
        );
    }
}

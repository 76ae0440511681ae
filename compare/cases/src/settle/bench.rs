//! The settlement's times.

use super::case::{Case, Kind, Lists, NAME, Record};
use super::draw::Name;
use super::shapes::{SHAPES, shape, shuffle};
use super::sides::{MOST_RANGES, MOST_RECORDS, records};
use crate::random::Random;
use crate::table::{grows, median, row, slowest};
use oracle::settle::Regions;
use ours::settle::Records;

/// A name as regions have them.
fn typical(i: usize) -> Name {
    let mut bytes = [0; NAME];
    bytes[..8].copy_from_slice(format!("main{i:04}").as_bytes());
    (8, bytes)
}

/// A name as long as may be, the same as others but for its end.
fn long(i: usize) -> Name {
    let mut bytes = [b'm'; NAME];
    bytes[NAME - 4..].copy_from_slice(format!("{i:04}").as_bytes());
    (NAME as u8, bytes)
}

/// The ranges in random order over so many records, each with its own name and number.
fn lists(
    usable: usize,
    unavailable: usize,
    mut ranges: Vec<(u64, u64)>,
    seqs: &mut [u64],
    name: fn(usize) -> Name,
    random: &mut Random,
) -> Lists {
    shuffle(&mut ranges, random);
    shuffle(seqs, random);
    let each = ranges.len() / (usable + unavailable);
    let of = |(i, ranges): (usize, &[(u64, u64)])| {
        let (len, name) = name(i);
        Record {
            usable: i < usable,
            seq: seqs[i],
            len,
            name,
            ranges: ranges.to_vec(),
            count: None,
        }
    };
    let set: Vec<Record> = ranges.chunks(each).enumerate().map(of).collect();
    Case::new(&set, 0).lists()
}

fn lent(kind: &Kind) -> Records<'_> {
    Records {
        count: kind.count,
        seqs: &kind.seqs,
        counts: &kind.counts,
        ranges: &kind.ranges,
        lens: &kind.lens,
        names: &kind.names,
    }
}

/// The records are made before, and so are ours' marks and scratch; the Rust makes its own.
fn times(lists: &Lists) -> (f64, f64) {
    let rounds = 21;
    let [usable, unavailable] = [&lists.usable, &lists.unavailable].map(records);
    let regions = Regions::new(&usable, &unavailable);
    let rust = median(rounds, || None, |settled| *settled = Some(regions.settle()));
    let [usable, unavailable] = [&lists.usable, &lists.unavailable].map(lent);
    let mut marks = lists.marks.clone();
    let mut scratch = lists.scratch.clone();
    let mine = median(
        rounds,
        || (),
        |()| {
            let refusal = ours::settle::settle(usable, unavailable, &mut marks, &mut scratch);
            assert_eq!(refusal, 0);
        },
    );
    assert_eq!(marks, regions.settle().marks());
    (rust, mine)
}

fn time(operation: &str, lists: &Lists) {
    let (rust, mine) = times(lists);
    row(operation, rust, mine);
}

pub fn bench(random: &mut Random) {
    let most = MOST_RECORDS;
    let mut rising: Vec<u64> = (1..=2 * most as u64).collect();
    let timed = SHAPES
        .into_iter()
        .filter(|name| !name.starts_with("touching"));
    for name in timed {
        let ranges = shape(name, MOST_RANGES, random);
        let lists = lists(most, most, ranges, &mut rising, typical, random);
        time(&format!("settle 65,536 ranges, {name}"), &lists);
    }
    let meeting = |n: usize, random: &mut Random| shape("each meets about 1", n, random);
    let mut equal = vec![7; 2 * most];
    let ranges = meeting(MOST_RANGES, random);
    let of_equal = lists(most, most, ranges, &mut equal, typical, random);
    time("settle 65,536 ranges, numbers equal", &of_equal);
    let ranges = meeting(MOST_RANGES, random);
    let of_long = lists(most, most, ranges, &mut rising, long, random);
    time("settle 65,536 ranges, long names", &of_long);
    for name in ["disjoint", "each meets about 1"] {
        let ranges = shape(name, 64 * 62, random);
        let lists = lists(64, 0, ranges, &mut rising, typical, random);
        time(&format!("settle 64 records of 62, {name}"), &lists);
    }
}

/// As many ranges a record as with the most of both.
pub fn growth(random: &mut Random) {
    let sizes = [1024, 4096, 16_384, MOST_RANGES];
    grows("settle, the slowest of all shapes", &sizes, |n| {
        let most = n * MOST_RECORDS / MOST_RANGES;
        let mut rising: Vec<u64> = (1..=2 * most as u64).collect();
        let each = SHAPES.map(|name| {
            let ranges = shape(name, n, random);
            times(&lists(most, most, ranges, &mut rising, typical, random)).1
        });
        slowest(&each)
    });
}

//! `runs`.

use crate::flat::{flat, pairs, spread, words};
use crate::lent::Lent;
use crate::random::Random;
use crate::shrink::shrink;
use crate::table::{grows, median, row};

const MAX: u64 = u64::MAX;

/// The refusal, how many runs, and the three lists afterwards.
type Answer = (u64, u64, [Vec<u64>; 3]);

/// Writes the runs of the Rust as ours does; answers how many there are.
fn write(extents: &[(u64, u64)], lists: [&mut [u64]; 3]) -> usize {
    let [starts, files, lens] = lists;
    let mut n = 0;
    for run in oracle::footprint::runs(extents.iter().copied()) {
        starts[n] = run.start;
        files[n] = run.file;
        lens[n] = run.len;
        n += 1;
    }
    n
}

/// Lists of so many places, with a different number in each.
fn before(places: [usize; 3]) -> [Vec<u64>; 3] {
    let list = |first: u64, n: usize| (first..).take(n).collect();
    [
        list(1_000_000, places[0]),
        list(2_000_000, places[1]),
        list(3_000_000, places[2]),
    ]
}

/// The answer that is due. The Rust yields its runs one by one and has neither odd lists nor
/// places: document 01 refuses with 1.
fn due(extents: &[u64], places: [usize; 3]) -> Answer {
    let mut lists = before(places);
    if extents.len() % 2 == 1 || places.iter().any(|&p| p < extents.len() / 2) {
        return (1, 0, lists);
    }
    let n = write(&pairs(extents), lists.each_mut().map(Vec::as_mut_slice));
    (0, n as u64, lists)
}

fn by_ours(extents: &[u64], places: [usize; 3]) -> Answer {
    let mut lists = before(places).map(|l| Lent::new(&l));
    let [starts, files, lens] = lists.each_mut().map(Lent::list);
    let (refusal, n) = ours::runs(extents, starts, files, lens);
    (refusal, n, lists.map(Lent::back))
}

/// The lists have as many places as there are extents, the first three numbers of `off` more, the
/// last three fewer.
fn places(extents: &[u64], off: &[u64]) -> [usize; 3] {
    [0, 1, 2].map(|k| (extents.len() / 2 + off[k] as usize).saturating_sub(off[k + 3] as usize))
}

fn differs(extents: &[u64], off: &[u64]) -> bool {
    let places = places(extents, off);
    due(extents, places) != by_ours(extents, places)
}

fn check(extents: &[u64], off: [u64; 6]) -> Result<(), String> {
    if !differs(extents, &off) {
        return Ok(());
    }
    let small = shrink(extents.to_vec(), 2, |e| differs(e, &off));
    let off = shrink(off.to_vec(), 0, |o| differs(&small, o));
    let places = places(&small, &off);
    Err(format!(
        "runs({small:?}) into lists of {places:?} places: due is {:?}, ours gives {:?}",
        due(&small, places),
        by_ours(&small, places)
    ))
}

/// A list of n extents up to about `reach`, of which `parts` in eight follow the one before.
fn list(
    n: usize,
    parts: u64,
    reach: u64,
    len: impl Fn(&mut Random) -> u64,
    random: &mut Random,
) -> Vec<u64> {
    let mut extents = Vec::new();
    let mut end = random.sized() % reach;
    for _ in 0..n {
        let offset = if random.below(8) < parts {
            end
        } else {
            match random.below(4) {
                0 => end.wrapping_add(1),
                1 => end.wrapping_sub(1),
                2 => reach - random.below(4),
                _ => random.sized() % reach,
            }
        };
        let len = len(random);
        if len > 0 {
            end = offset.wrapping_add(len);
        }
        extents.push((offset, len));
    }
    flat(&extents)
}

/// A list with lengths of one of several sorts, empty ones and ones at the limits among them.
fn any_list(n: usize, random: &mut Random) -> Vec<u64> {
    let lens: [fn(&mut Random) -> u64; 5] = [
        |r| r.below(3),
        |r| 1 + r.below(1 << 20),
        |r| r.sized() * r.below(2),
        |r| MAX - r.below(4),
        |r| (MAX / 2 - 1 + r.below(4)) * r.below(4).min(1),
    ];
    let len = lens[random.below(5) as usize];
    list(n, random.below(9), MAX, len, random)
}

/// How many cases ran, or the smallest input on which the two differ.
pub fn compare(random: &mut Random) -> Result<usize, String> {
    let mut cases = 0;
    let mut try_list = |extents: &[u64], off: [u64; 6]| {
        cases += 1;
        check(extents, off)
    };
    // every list of up to three extents of these numbers
    let numbers = [0, 1, 2, 3, 1 << 63, MAX - 2, MAX - 1, MAX];
    for n in 0..=3u32 {
        for code in 0..64u64.pow(n) {
            let place = |k: u32| numbers[((code >> (3 * k)) & 7) as usize];
            let s: Vec<u64> = (0..2 * n).map(place).collect();
            try_list(&s, [0; 6])?;
        }
    }
    let sizes = (0..=70).chain([243, 244, 245, 1000, 4083, 4084]);
    for n in sizes {
        for _ in 0..if n <= 70 { 2000 } else { 100 } {
            let mut s = any_list(n, random);
            try_list(&s, [0; 6])?;
            let off = [0; 6].map(|_| random.below(4) * random.below(2));
            try_list(&s, off)?;
            s.push(random.sized());
            try_list(&s, off)?;
        }
    }
    Ok(cases)
}

pub fn sample(random: &mut Random) -> String {
    let mut text = String::from(
        "-- footprint.rs: extents = how many runs: their starts, their files, their lengths.\n",
    );
    for i in 0..80 {
        let n = i % 21;
        let s = if i % 4 == 0 {
            any_list(n.min(6), random)
        } else {
            let len = |r: &mut Random| r.below(30).saturating_sub(4);
            list(n, i as u64 % 9, 1 << 20, len, random)
        };
        let (_, n, lists) = due(&s, [s.len() / 2; 3]);
        let runs = lists.map(|l| words(&l[..n as usize])).join(",");
        text += &format!("runs 4: {}:{} = {n}:{runs}\n", s.len(), words(&s));
    }
    text
}

/// The Rust's time for lists of n extents, and ours.
fn times(n: usize, parts: u64, random: &mut Random) -> (f64, f64) {
    let lists: Vec<Vec<u64>> = (0..16).map(|_| spread(n, parts, random)).collect();
    let of_pairs: Vec<_> = lists.iter().map(|l| pairs(l)).collect();
    let places = || [vec![0; n], vec![0; n], vec![0; n]];
    let rust = median(41, places, |to| {
        for extents in &of_pairs {
            std::hint::black_box(write(extents, to.each_mut().map(Vec::as_mut_slice)));
        }
    });
    let mine = median(41, places, |to| {
        for extents in &lists {
            let [starts, files, lens] = to;
            assert_eq!(ours::runs(extents, starts, files, lens).0, 0);
        }
    });
    (rust / 16.0, mine / 16.0)
}

pub fn bench(random: &mut Random) {
    for (name, parts) in [
        ("none adjacent", 0),
        ("half adjacent", 4),
        ("all adjacent", 8),
    ] {
        let (rust, mine) = times(4084, parts, random);
        row(&format!("runs of 4,084 extents, {name}"), rust, mine);
    }
}

pub fn growth(random: &mut Random) {
    let sizes = [8, 60, 500, 4084];
    grows("runs, half of the extents adjacent", &sizes, |n| {
        times(n, 4, random).1
    });
}

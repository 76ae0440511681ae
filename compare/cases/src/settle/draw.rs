//! Random sets of records.

use super::case::{Case, MARKS, NAME, NO_NAME, RANGES, Record, SCRATCH, UNAVAILABLE_SIZES};
use super::shapes::{SHAPES, shape, shuffle};
use crate::flat::beside;
use crate::random::Random;

const MAX: u64 = u64::MAX;

/// A name: its length, and 24 bytes.
pub type Name = (u8, [u8; NAME]);

/// Some name of these bytes, with whatever is behind it.
pub fn name(text: &[u8], random: &mut Random) -> Name {
    let mut bytes = [0; NAME];
    if random.below(2) == 0 {
        bytes = bytes.map(|_| random.next() as u8);
    }
    bytes[..text.len()].copy_from_slice(text);
    (text.len() as u8, bytes)
}

/// A few names: prefixes of one text, or the same but for one byte, mostly their last.
fn texts(n: u64, random: &mut Random) -> Vec<Vec<u8>> {
    let mask = [0, 1, 255][random.below(3) as usize];
    let base: Vec<u8> = (0..NAME).map(|_| random.next() as u8 & mask).collect();
    let one_length = random.below(2) == 0;
    let length = |random: &mut Random| match random.below(8) {
        0..2 => random.below(3),
        2..4 => random.below(NAME as u64 + 1),
        4 => 8,
        _ => NAME as u64 - random.below(2),
    };
    let len = length(random);
    let mut all = Vec::new();
    for _ in 0..n {
        let len = if one_length { len } else { length(random) } as usize;
        let mut text = base[..len].to_vec();
        if len > 0 && random.below(4) > 0 {
            let last = random.below(4) > 0;
            let at = if last {
                len - 1
            } else {
                random.below(len as u64) as usize
            };
            text[at] = text[at].wrapping_add(random.below(3) as u8);
        }
        all.push(text);
    }
    all
}

/// Where ranges lie and how long they are.
#[derive(Clone, Copy)]
enum Space {
    Tiny,
    /// At the last bytes.
    Top,
    Wide,
    /// One in so many bytes has an offset.
    Spread(u64),
}

/// n ranges; some equal, touch or share an end with one before.
fn ranges(n: usize, space: Space, random: &mut Random) -> Vec<(u64, u64)> {
    let width = [2, 4, 8, 16][random.below(4) as usize];
    let mut all: Vec<(u64, u64)> = Vec::new();
    for i in 0..n {
        let (offset, len) = match space {
            Space::Tiny => (random.below(width), random.below(4)),
            Space::Top => {
                let len = [random.below(width), MAX - random.below(2), random.sized()];
                (MAX - random.below(width), len[random.below(3) as usize])
            }
            Space::Wide => (random.sized(), random.sized()),
            Space::Spread(each) => (random.below(n as u64 * each), 1 + random.below(8)),
        };
        let other = match i {
            0 => (0, 0),
            _ => all[random.below(i as u64) as usize],
        };
        all.push(beside(random.below(16), (offset, len), other));
    }
    all
}

/// n sequence numbers.
fn seqs(n: usize, random: &mut Random) -> Vec<u64> {
    let sort = random.below(8);
    let mut list: Vec<u64> = (0..n as u64)
        .map(|i| match sort {
            0 => 7,
            1 => random.below(2),
            2 => random.below(2) * MAX,
            3 => MAX - random.below(3),
            4 => random.below(4),
            5 => random.next(),
            _ => i,
        })
        .collect();
    shuffle(&mut list, random);
    list
}

/// The ranges over so many usable and unavailable records, with names of `texts`, or a name of its
/// own for each where there are none; some unavailable ones have no name.
pub fn spread(
    usable: usize,
    unavailable: usize,
    ranges: &[(u64, u64)],
    seqs: &[u64],
    texts: &[Vec<u8>],
    random: &mut Random,
) -> Vec<Record> {
    let n = usable + unavailable;
    let mut all = Vec::new();
    for (i, &seq) in seqs.iter().enumerate().take(n) {
        let text = match texts.len() as u64 {
            0 => format!("main{i:04}").into_bytes(),
            k => texts[random.below(k) as usize].clone(),
        };
        let (mut len, bytes) = name(&text, random);
        if i >= usable && random.below(4) == 0 {
            len = NO_NAME;
        }
        all.push(Record {
            usable: i < usable,
            seq,
            len,
            name: bytes,
            ranges: Vec::new(),
            count: None,
        });
    }
    if n > 0 {
        // to any record, in turn, or nearly all to one
        let (sort, one) = (random.below(3), random.below(n as u64) as usize);
        for (i, &range) in ranges.iter().enumerate() {
            let owner = match sort {
                0 => i % n,
                1 if random.below(16) > 0 => one,
                _ => random.below(n as u64) as usize,
            };
            all[owner].ranges.push(range);
        }
    }
    all
}

/// Up to so many records and ranges.
pub fn set(usable: usize, unavailable: usize, n: usize, random: &mut Random) -> Case {
    let space = match random.below(8) {
        0 => Space::Wide,
        1 => Space::Top,
        2 => Space::Spread(8),
        3 => Space::Spread(64),
        _ => Space::Tiny,
    };
    let many = 1 + random.below(4);
    let ranges = ranges(n, space, random);
    let seqs = seqs(usable + unavailable, random);
    let texts = texts(many, random);
    let records = spread(usable, unavailable, &ranges, &seqs, &texts, random);
    Case::new(&records, random.next())
}

/// A set of a larger size: some shape, or ranges spread so that not all meet, the names mostly
/// different.
pub fn large(usable: usize, unavailable: usize, n: usize, random: &mut Random) -> Case {
    let mut list = match random.below(3) {
        0 => {
            let each = [1, 8, 64, 4096][random.below(4) as usize];
            ranges(n, Space::Spread(each), random)
        }
        _ => shape(
            SHAPES[random.below(SHAPES.len() as u64) as usize],
            n,
            random,
        ),
    };
    if random.below(4) > 0 {
        shuffle(&mut list, random);
    }
    if random.below(4) == 0 {
        lift(&mut list, random.below(3));
    }
    let names = match random.below(3) {
        0 => texts(1 + random.below(2000), random),
        _ => Vec::new(),
    };
    let seqs = seqs(usable + unavailable, random);
    let records = spread(usable, unavailable, &list, &seqs, &names, random);
    Case::new(&records, random.next())
}

/// Moves the ranges up until the last end is so many bytes past 2^64 - 1.
pub fn lift(ranges: &mut [(u64, u64)], past: u64) {
    let ends = ranges.iter().map(|r| r.0.saturating_add(r.1));
    let by = (MAX - ends.max().unwrap_or(0)).saturating_add(past);
    for r in ranges {
        r.0 = r.0.saturating_add(by);
    }
}

/// Lists that are longer than needed, or now and then one that is too short or odd.
pub fn resize(case: &mut Case, random: &mut Random) {
    for k in 0..=SCRATCH {
        if k % UNAVAILABLE_SIZES == 0 && k != MARKS {
            continue;
        }
        let pairs = k < MARKS && k % UNAVAILABLE_SIZES == RANGES;
        let longer = (1 + random.below(3)) * if pairs { 2 } else { 1 };
        case.sizes[k] = match random.below(32) {
            0 => 2 + 2 * random.below(4),
            1 => 1 + 2 * random.below(80),
            2..16 => 2 * longer - 1,
            _ => 0,
        };
    }
}

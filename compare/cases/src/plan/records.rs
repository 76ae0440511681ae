//! Opens with records: usable regions in a container.

use super::call::{Entry, Header, Name, Range, Record, SLOT};
use super::sequence::{Told, name, named};
use crate::flat::flat;
use crate::random::Random;

/// 2^63 - 1.
pub const LONGEST: u64 = u64::MAX / 2;

pub fn one<T: Copy>(list: &[T], random: &mut Random) -> T {
    list[random.below(list.len() as u64) as usize]
}

fn shuffle<T>(list: &mut [T], random: &mut Random) {
    for i in (1..list.len()).rev() {
        list.swap(i, random.below(i as u64 + 1) as usize);
    }
}

/// 0, a multiple of the block, or any small number.
pub fn table_end(block: u64, random: &mut Random) -> u64 {
    match random.below(5) {
        0 => 0,
        1 | 2 => random.below(4) * block,
        _ => random.below(3 * block),
    }
}

/// Which region each piece of the file belongs to, in the order of the file: for each region two
/// header blocks and so many extents.
fn owners(counts: &[usize], random: &mut Random) -> Vec<usize> {
    let pieces = |i: usize| counts[i] + 2;
    let mut owners: Vec<usize> = (0..counts.len()).flat_map(|i| vec![i; pieces(i)]).collect();
    match random.below(3) {
        0 => {}
        1 => shuffle(&mut owners, random),
        _ => {
            // in turn
            let most = (0..counts.len()).map(pieces).max().unwrap_or(0);
            let turns = (0..most).flat_map(|k| (0..counts.len()).filter(move |&i| k < pieces(i)));
            owners = turns.collect();
        }
    }
    owners
}

/// Different numbers: small ones, the greatest, or any.
fn numbers(n: usize, random: &mut Random) -> Vec<u64> {
    let way = random.below(3);
    let far = random.next();
    let number = |i: u64| match way {
        0 => i,
        1 => u64::MAX - i,
        _ => far.wrapping_add(i << 40),
    };
    let mut list: Vec<u64> = (0..n as u64).map(number).collect();
    shuffle(&mut list, random);
    list
}

/// Different names, at most one of them empty. What stands behind a name is anything.
fn names(n: usize, random: &mut Random) -> Vec<Name> {
    let zeros = n <= 25 && random.below(2) == 0;
    let empty = random.below(2 * n.max(1) as u64);
    let text = |i: u64, random: &mut Random| match zeros {
        true => name(named(0, i)),
        false if i == empty => Vec::new(),
        false => name(named(i + 1, one(&[1, 2, 3, 8, 23, 24], random))),
    };
    (0..n as u64)
        .map(|i| {
            let text = text(i, random);
            let mut name = Name::new(&text);
            if random.below(2) == 0 {
                name.bytes[text.len()..].fill(random.next() as u8);
            }
            name
        })
        .collect()
}

/// Sequence numbers: by place, all the same, or any.
fn seqs(n: usize, random: &mut Random) -> Vec<u64> {
    let same = random.number();
    let way = random.below(4);
    let seq = |i: u64| match way {
        0 => i + 1,
        1 => same,
        _ => random.number(),
    };
    (0..n as u64).map(seq).collect()
}

/// The extents of a region in the order of its data.
fn in_data_order(mut extents: Vec<Range>, random: &mut Random) -> Vec<Range> {
    match random.below(5) {
        0 => extents.reverse(),
        1 => shuffle(&mut extents, random),
        2 if extents.len() > 1 => {
            let i = random.below(extents.len() as u64 - 1) as usize;
            extents.swap(i, i + 1);
        }
        _ => {}
    }
    extents
}

/// An extent that the header lists beyond the entry's: anything.
fn extra(at: u64, block: u64, random: &mut Random) -> Range {
    match random.below(4) {
        0 => (random.number(), random.number()),
        1 => (at, 0),
        _ => (
            random.below(at + 1) / block * block,
            (1 + random.below(9)) * block,
        ),
    }
}

/// Regions of these numbers of extents, which open accepts unless there are too many.
pub fn of_counts(counts: &[usize], log2_block: u8, random: &mut Random) -> Told {
    let block = 1u64 << log2_block;
    let table_end = table_end(block, random);
    let (touching, lengths) = (random.below(4), random.below(4));
    let far = random.below(40 * counts.len() as u64 + 1);
    let mut at = table_end;
    let (mut headers, mut extents) = (vec![vec![]; counts.len()], vec![vec![]; counts.len()]);
    for (i, owner) in owners(counts, random).into_iter().enumerate() {
        at += match touching {
            0 => 0,
            1 => one(&[0, 0, 0, 1, 4], random) * block,
            // about as much as a create or a grow asks for
            2 => one(&[0, 0, 1, 2, 15, 16, 17, 31, 32, 33], random) * block,
            _ => random.below(3 * block),
        };
        if i as u64 == far {
            at += random.below(LONGEST / 2);
        }
        let blocks: &mut Vec<u64> = &mut headers[owner];
        let left = counts[owner] + 2 - blocks.len() - extents[owner].len();
        // the header blocks are the first pieces, the last, or any
        let needed = left <= 2 - blocks.len();
        if blocks.len() < 2 && (needed || random.below(3) == 0) {
            at = at.next_multiple_of(block);
            blocks.push(at);
            at += block;
        } else {
            let len = match lengths {
                0 => 1 + random.below(5000),
                1 => (1 + random.below(40)) * 512,
                _ => (1 + random.below(8)) * block,
            };
            extents[owner].push((at, len));
            at += len;
        }
    }
    let room = match random.below(6) {
        0 => 0,
        1 => random.below(block),
        2 => random.below(LONGEST - at),
        3 => LONGEST - at,
        _ => random.below(500) * block + random.below(block),
    };
    let file_len = at + room;
    let mut told = Told::empty(log2_block, table_end, file_len);
    let n = counts.len();
    let (numbers, names, seqs) = (numbers(n, random), names(n, random), seqs(n, random));
    let far_tags = random.below(8) == 0;
    for i in 0..n {
        let committed = in_data_order(extents[i].clone(), random);
        let pieces = || committed.iter().map(|e| (e.0, e.0 + e.1));
        let blocks = || headers[i].iter().map(|&at| (at, at + block));
        let lowest = pieces().chain(blocks()).map(|p| p.0).min().unwrap_or(0);
        let highest = pieces().chain(blocks()).map(|p| p.1).max().unwrap_or(0);
        let capacity: u64 = committed.iter().map(|e| e.1).sum();
        let log2_header = one(&[9, log2_block, log2_block], random);
        let units = capacity >> log2_header;
        let units = match random.below(3) {
            0 => 0,
            1 => units,
            _ => random.below(units + 1),
        };
        let [mut a, mut b] = [headers[i][0], headers[i][1]];
        if random.below(3) == 0 {
            (a, b) = (b, a);
        }
        let slack = |most: u64, random: &mut Random| match random.below(3) {
            0 => most,
            1 => random.below(most + 1),
            _ => 0,
        };
        let count = committed.len() as u16;
        let entry = Entry {
            kind: 1 + random.below(3) as u8,
            flags: random.below(4) as u8,
            extent_count: count,
            header_a: a,
            header_b: b,
            span_start: lowest - slack(lowest - table_end, random),
            span_end: highest + slack(file_len - highest, random),
            data_size: units << log2_header,
            capacity,
            footprint_seq: seqs[i],
        };
        let mut listed = committed;
        if entry.kind != SLOT && random.below(3) == 0 {
            listed.push(extra(at, block, random));
        }
        let header = Header {
            region_id: numbers[i],
            kind: entry.kind,
            flags: entry.flags,
            ready: true,
            log2_block: log2_header,
            extent_count: listed.len() as u16,
        };
        let tag = match far_tags {
            true => u32::MAX - i as u32,
            false => random.below(5) as u32,
        };
        let record = Record {
            number: numbers[i],
            tag,
            name: names[i],
            entry,
            header,
        };
        told.records.push((record, flat(&listed)));
    }
    if random.below(4) == 0 {
        told.scratch = 2 * random.below(40) + 1;
    }
    told
}

/// So many regions of up to so many extents.
pub fn drawn(regions: usize, most: usize, random: &mut Random) -> Told {
    let counts: Vec<usize> = (0..regions)
        .map(|_| random.below(most as u64 + 1) as usize)
        .collect();
    of_counts(&counts, 12 + random.below(5) as u8, random)
}

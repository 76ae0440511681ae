//! Sets made of one shape of ranges, one sort of sequence numbers and one sort of names.

use super::Check;
use super::case::{Case, NAME};
use super::draw::{lift, spread};
use super::shapes::{SHAPES, shape, shuffle};
use super::sides::{MOST_RANGES, MOST_RECORDS};
use crate::random::Random;

const MAX: u64 = u64::MAX;

/// Sequence numbers for n records: all different, in random order; all equal, of three values; only
/// 0 and 2^64 - 1; rising; falling.
fn numbers(n: usize, random: &mut Random) -> Vec<Vec<u64>> {
    let rising: Vec<u64> = (0..n as u64).collect();
    let mut any = rising.clone();
    shuffle(&mut any, random);
    let falling = rising.iter().rev().copied().collect();
    let ends = (0..n).map(|_| random.below(2) * MAX).collect();
    let mut lists = vec![any, rising, falling, ends];
    lists.extend([0, 5, MAX].map(|seq| vec![seq; n]));
    lists
}

/// Names that are drawn from: a different one for each record (none here), one for all, only the
/// empty one, prefixes of one text, of one byte and of zeros, 24 bytes that differ in the last, in
/// the first, and in the middle.
fn names() -> Vec<Vec<Vec<u8>>> {
    let text: Vec<u8> = (b'a'..).take(NAME).collect();
    let prefixes = |text: &[u8]| -> Vec<Vec<u8>> {
        (0..=text.len()).map(|end| text[..end].to_vec()).collect()
    };
    let differing = |at: usize| -> Vec<Vec<u8>> {
        let with = |b: u8| {
            let mut name = text.clone();
            name[at] = b;
            name
        };
        (0..=u8::MAX).map(with).collect()
    };
    vec![
        Vec::new(),
        vec![b"one".to_vec()],
        vec![Vec::new()],
        prefixes(&text),
        prefixes(&[0; NAME]),
        differing(NAME - 1),
        differing(0),
        differing(NAME / 2),
    ]
}

/// n ranges of which only those at places p and q meet, in one byte.
fn one_meeting(n: usize, p: usize, q: usize, random: &mut Random) -> Vec<(u64, u64)> {
    let mut ranges = shape("touching", n, random);
    shuffle(&mut ranges, random);
    let (offset, len) = ranges[q];
    ranges[p] = (offset + len - 1, 1);
    ranges
}

/// One meeting in sets of each size up to the most, its ranges first, last or elsewhere.
fn meetings(random: &mut Random, check: Check) -> Result<(), String> {
    let sizes = [
        255,
        256,
        257,
        1023,
        1024,
        1025,
        4096,
        32_768,
        65_535,
        MOST_RANGES,
    ];
    for n in (2..=70).chain(sizes) {
        let any = random.below(n as u64) as usize;
        let places = [0, n - 1, n / 2, any];
        for (p, q) in places.iter().flat_map(|&p| places.map(|q| (p, q))) {
            let most = n.min(MOST_RECORDS);
            for (usable, unavailable) in [(most, 0), (1, 0), (1, 1), (most, most), (1, most)] {
                if p == q || (n > 2000 && random.below(2) == 0) {
                    continue;
                }
                let ranges = one_meeting(n, p, q, random);
                let numbers = numbers(usable + unavailable, random);
                let seqs = &numbers[random.below(numbers.len() as u64) as usize];
                let set = spread(usable, unavailable, &ranges, seqs, &[], random);
                check(&Case::new(&set, random.next()))?;
            }
        }
    }
    Ok(())
}

/// Every shape with every sort of numbers and of names, in small sets; then large ones, each shape
/// with a few sorts of both.
pub fn compare(random: &mut Random, check: Check) -> Result<(), String> {
    let names = names();
    for round in 0..12 {
        let (usable, unavailable) = (1 + round % 4 * 5, round % 5 * 4);
        let n = [1, 2, 3, 7, 16, 33, 60][round % 7];
        let numbers = numbers(usable + unavailable, random);
        for name in SHAPES {
            for seqs in &numbers {
                for names in &names {
                    let mut ranges = shape(name, n, random);
                    if round % 3 == 1 {
                        shuffle(&mut ranges, random);
                    }
                    if round % 4 == 2 {
                        lift(&mut ranges, round as u64 % 3);
                    }
                    let set = spread(usable, unavailable, &ranges, seqs, names, random);
                    check(&Case::new(&set, random.next()))?;
                }
            }
        }
    }
    for name in SHAPES {
        for i in 0..4 {
            let most = MOST_RECORDS;
            let (usable, unavailable) = [(most, most), (most, 0), (1, most), (64, 3)][i];
            let numbers = numbers(usable + unavailable, random);
            let mut ranges = shape(name, MOST_RANGES, random);
            if i % 2 == 0 {
                shuffle(&mut ranges, random);
            }
            let seqs = &numbers[random.below(numbers.len() as u64) as usize];
            let names = &names[random.below(names.len() as u64) as usize];
            let set = spread(usable, unavailable, &ranges, seqs, names, random);
            check(&Case::new(&set, random.next()))?;
        }
    }
    // all records there may be, of each sort of names, with few ranges
    for names in &names {
        for seqs in numbers(2 * MOST_RECORDS, random) {
            let ranges = shape("touching but for a few", 3000, random);
            let set = spread(MOST_RECORDS, MOST_RECORDS, &ranges, &seqs, names, random);
            check(&Case::new(&set, random.next()))?;
        }
    }
    meetings(random, check)
}

//! Refusal 1: each limit, and one off it.

use super::Check;
use super::case::{
    COUNT, COUNTS, Case, LENS, MARKS, NAME, NAMES, RANGES, Record, SCRATCH, SEQS, UNAVAILABLE_SIZES,
};
use super::draw::{set, spread};
use super::shapes::shape;
use super::sides::{MOST_RANGES, MOST_RECORDS};
use crate::random::Random;
use crate::shrink::distance;

const MAX: u64 = u64::MAX;

/// So many records with ranges that touch.
fn of(usable: usize, unavailable: usize, ranges: usize, random: &mut Random) -> Vec<Record> {
    let seqs: Vec<u64> = (0..(usable + unavailable) as u64).collect();
    let ranges = shape("touching", ranges, random);
    spread(usable, unavailable, &ranges, &seqs, &[], random)
}

/// Each list one or two too short, empty, longer by one and by more; each count of records beside
/// its own and at other limits.
fn sizes(case: &Case, check: Check) -> Result<(), String> {
    let mut with = |changes: &[(usize, u64)]| {
        let mut changed = case.clone();
        for &(k, size) in changes {
            changed.sizes[k] = size;
        }
        check(&changed)
    };
    // one less, two less and so on, none; one more, two more and so on
    let lengths = [2, 4, 6, 2 * NAME as u64, 1 << 17, 1, 3, 5, 7, 47, 101];
    for k in (0..=SCRATCH).filter(|&k| k % UNAVAILABLE_SIZES != COUNT || k == MARKS) {
        for size in lengths {
            with(&[(k, size)])?;
        }
    }
    let lists = case.lists();
    for (first, n) in [
        (0, lists.usable.count),
        (UNAVAILABLE_SIZES, lists.unavailable.count),
    ] {
        let n = n as u64;
        let counts = [
            n.saturating_sub(1),
            n / 2,
            n + 1,
            1024,
            1025,
            1 << 16,
            (1 << 16) + n,
            (1 << 32) + n,
            (1 << 61) + n,
            1 << 63,
            (1 << 63) + n,
            MAX / 24 + 1,
            MAX,
        ];
        for count in counts {
            let off = distance(count, n);
            with(&[(first + COUNT, off)])?;
            // the lists long enough for one more
            let longer = [SEQS, COUNTS, LENS].map(|k| (first + k, 1));
            let names = [(first + NAMES, 47), (MARKS, 1), (first + COUNT, off)];
            with(&[&longer[..], &names].concat())?;
        }
    }
    Ok(())
}

/// 1,024 and 1,025 records of each kind.
fn records(random: &mut Random, check: Check) -> Result<(), String> {
    let most = MOST_RECORDS;
    for usable in [0, 1, most - 1, most, most + 1] {
        for unavailable in [0, 1, most - 1, most, most + 1] {
            for ranges in [0, 5] {
                check(&Case::new(&of(usable, unavailable, ranges, random), 1))?;
            }
        }
    }
    Ok(())
}

/// 65,535 to 65,538 ranges, all in one kind or in both, in few records or in many.
fn ranges(random: &mut Random, check: Check) -> Result<(), String> {
    let most = MOST_RECORDS;
    for (usable, unavailable) in [(1, 0), (0, 1), (1, 1), (2, 3), (most, most), (most, 0)] {
        for n in [-1isize, 0, 1, 2].map(|by| MOST_RANGES.saturating_add_signed(by)) {
            check(&Case::new(&of(usable, unavailable, n, random), 2))?;
        }
    }
    // each kind within the limit, both together at it or past it
    let touching = shape("touching", MOST_RANGES + 1, random);
    for first in [1, 2, MOST_RANGES / 2, MOST_RANGES - 1, MOST_RANGES] {
        for all in [MOST_RANGES, MOST_RANGES + 1] {
            let mut set = of(1, 1, 0, random);
            set[0].ranges = touching[..first].to_vec();
            set[1].ranges = touching[first..all].to_vec();
            check(&Case::new(&set, 3))?;
            // more numbers than the counts need
            let mut longer = Case::new(&set, 4);
            longer.sizes[RANGES] = 3;
            longer.sizes[UNAVAILABLE_SIZES + RANGES] = 7;
            check(&longer)?;
        }
    }
    Ok(())
}

/// Counts beside the ranges that there are, and counts whose sum passes 2^64.
fn counts(random: &mut Random, check: Check) -> Result<(), String> {
    for at in 0..6 {
        let set = of(3, 3, 12, random);
        let n = set[at].ranges.len() as u64;
        let near = [n - 1, n + 1, n + 2, 0];
        let powers = [16, 31, 32, 48, 59, 60, 61, 62, 63].map(|k| 1u64 << k);
        let wide = powers.into_iter().flat_map(|p| [p, p + n]);
        for count in near.into_iter().chain(wide).chain([MAX, MAX - n]) {
            let mut changed = set.clone();
            changed[at].count = Some(count);
            check(&Case::new(&changed, 5))?;
            // so that the sum of two counts, or of all, is what it was but for 2^64
            for other in (0..6).filter(|&other| other != at) {
                let mut both = changed.clone();
                let its = both[other].ranges.len() as u64;
                both[other].count = Some((its + n).wrapping_sub(count));
                check(&Case::new(&both, 6))?;
            }
        }
    }
    for seed in 0..64 {
        let mut set = of(4, 4, 8, random);
        for record in &mut set {
            if random.below(2) == 0 {
                record.count = Some(1 << [0, 16, 32, 62, 63][random.below(5) as usize]);
            }
        }
        check(&Case::new(&set, seed))?;
    }
    Ok(())
}

/// Every length of a name, at each place.
fn names(random: &mut Random, check: Check) -> Result<(), String> {
    for at in 0..6 {
        for len in 0..=u8::MAX {
            let mut set = of(3, 3, 6, random);
            set[at].len = len;
            check(&Case::new(&set, 7))?;
        }
    }
    // lengths behind the records count for nothing
    for filling in 0..200 {
        let mut case = Case::new(&of(2, 2, 4, random), filling);
        for k in [LENS, NAMES, COUNTS, SEQS] {
            case.sizes[k] = 99;
            case.sizes[UNAVAILABLE_SIZES + k] = 99;
        }
        check(&case)?;
    }
    Ok(())
}

pub fn compare(random: &mut Random, check: Check) -> Result<(), String> {
    for (usable, unavailable, ranges) in [
        (0, 0, 0),
        (1, 0, 0),
        (0, 1, 0),
        (1, 1, 0),
        (1, 0, 1),
        (0, 1, 1),
        (1, 1, 2),
        (3, 2, 9),
        (MOST_RECORDS, 2, 40),
        (2, MOST_RECORDS, 40),
        (MOST_RECORDS, MOST_RECORDS, 2100),
    ] {
        sizes(
            &Case::new(&of(usable, unavailable, ranges, random), 8),
            check,
        )?;
    }
    for n in 0..40 {
        sizes(&set(n % 5, n % 4, n, random), check)?;
    }
    sizes(&Case::new(&of(2, 2, MOST_RANGES, random), 9), check)?;
    records(random, check)?;
    ranges(random, check)?;
    counts(random, check)?;
    names(random, check)
}

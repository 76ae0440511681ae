//! Every container of a few bytes, and containers at the limits.

use super::Check;
use super::case::{Case, Told, plain};
use crate::flat::flat;

const MAX: u64 = u64::MAX;

const LIMITS: [u64; 8] = [0, 1, 2, 3, 1 << 63, MAX - 2, MAX - 1, MAX];

/// Every list of n pairs of these offsets and lengths.
fn lists(n: usize, offsets: &[u64], lens: &[u64]) -> Vec<Vec<u64>> {
    let mut all = vec![Vec::new()];
    for _ in 0..n {
        let mut longer = Vec::new();
        for list in &all {
            for &offset in offsets {
                longer.extend(lens.iter().map(|&len| [&list[..], &[offset, len]].concat()));
            }
        }
        all = longer;
    }
    all
}

/// Every question with these numbers.
fn questions(lens: &[u64], aligns: &[u64], skews: &[u64]) -> Vec<Told> {
    let mut all = Vec::new();
    for &len in lens {
        for &align in aligns {
            all.extend(skews.iter().map(|&skew| plain(len, align, skew)));
        }
    }
    all
}

/// Up to three ranges in any order in and beside a container of up to five bytes.
fn tiny(check: Check) -> Result<(), String> {
    let offsets = [0, 1, 2, 3, 4];
    let asked = questions(&[0, 1, 2, 3], &[1, 2, 4], &[0, 1, 3]);
    for ranges in (0..=3).flat_map(|n| lists(n, &offsets, &[0, 1, 2, 3])) {
        for (table_end, len) in (0..=5).flat_map(|t| (0..=5).map(move |len| (t, len))) {
            check(&Case::new(table_end, len, &ranges, &asked))?;
        }
    }
    Ok(())
}

/// Every set of allocated bytes in a container of eight, at its first bytes and at the last, with
/// every question that may matter.
fn sets(check: Check) -> Result<(), String> {
    let small: Vec<u64> = (0..=17).collect();
    let large: Vec<u64> = small.iter().map(|x| MAX - x).collect();
    let skews = [&small[..], &large].concat();
    let aligns = [1, 2, 4, 8, 16, 1 << 62, 1 << 63];
    let asked = questions(&[0, 1, 2, 3, 4, 5, 6, 7, 8, 9, MAX], &aligns, &skews);
    for base in [0, 1, MAX - 9, MAX - 8] {
        for set in 0..256u64 {
            let bytes = (0..8).filter(|b| set >> b & 1 == 1);
            let ranges: Vec<_> = bytes.map(|b| (base + b, 1)).collect();
            for table_end in [0, 1, 2] {
                let (from, len) = (base + table_end, base + 8);
                check(&Case::new(from, len, &flat(&ranges), &asked))?;
            }
        }
    }
    Ok(())
}

/// Up to two ranges at the limits, in containers and with questions there.
fn limits(check: Check) -> Result<(), String> {
    let asked = questions(&LIMITS, &[1, 2, 4, 1 << 62, 1 << 63], &LIMITS);
    let mut turn = 0;
    for ranges in (0..=2).flat_map(|n| lists(n, &LIMITS, &LIMITS)) {
        for (table_end, len) in LIMITS.iter().flat_map(|&t| LIMITS.map(|len| (t, len))) {
            // with two ranges a few questions, other ones for each case
            let few = if ranges.len() > 2 { 5 } else { asked.len() };
            turn = (turn + few) % asked.len();
            let asked = &asked[turn.min(asked.len() - few)..][..few];
            check(&Case::new(table_end, len, &ranges, asked))?;
        }
    }
    Ok(())
}

/// Lists one number and more too short and too long for gaps, odd lists of ranges, and fewer places
/// lent to a question than the map counts gaps.
fn places(check: Check) -> Result<(), String> {
    for n in 0..=40u64 {
        let ranges: Vec<u64> = (0..n).map(|i| 1 + i / 2 * 3 + i % 2).collect();
        for gaps in 0..=12 {
            let mut case = Case::new(0, 2 * n + 4, &ranges, &[]).with_places(gaps);
            for told in 0..=9 {
                case.ask(&[[told, 1, 1, 0], [told, 1, 3, 0], [told, 1, 0, 0]]);
            }
            check(&case.filled(n + gaps))?;
        }
    }
    Ok(())
}

/// Each number near a power of two as align.
fn aligns(check: Check) -> Result<(), String> {
    let mut case = Case::new(3, MAX, &[10, 90, 1 << 40, 1 << 50], &[]);
    for align in crate::random::limits() {
        for skew in [0, 5, align, MAX - 2, align.wrapping_neg()] {
            case.ask(&[0, 1, 7, 8, 1 << 20].map(|len| plain(len, align, skew)));
        }
    }
    check(&case)
}

pub fn compare(check: Check) -> Result<(), String> {
    tiny(check)?;
    sets(check)?;
    limits(check)?;
    places(check)?;
    aligns(check)
}

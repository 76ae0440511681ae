//! Makes an input on which the two sides differ as small as it can.

use std::iter;
use std::time::{Duration, Instant};

/// When to stop, if it is begun now: an input of many numbers that all matter takes far longer.
pub fn deadline() -> Instant {
    Instant::now() + Duration::from_secs(20)
}

/// Removes runs of `unit` numbers and lowers single numbers for as long as `differs` still says so.
pub fn shrink(input: Vec<u64>, unit: usize, differs: impl Fn(&[u64]) -> bool) -> Vec<u64> {
    shrink_until(deadline(), input, unit, differs)
}

/// The same, but no longer than to this time.
pub fn shrink_until(
    end: Instant,
    mut input: Vec<u64>,
    unit: usize,
    differs: impl Fn(&[u64]) -> bool,
) -> Vec<u64> {
    let late = || Instant::now() > end;
    loop {
        let before = input.clone();
        if unit > 0 {
            let mut width = (input.len() / unit / 2).max(1);
            loop {
                let mut at = 0;
                while (at + width) * unit <= input.len() && !late() {
                    let mut shorter = input.clone();
                    shorter.drain(at * unit..(at + width) * unit);
                    if differs(&shorter) {
                        input = shorter;
                    } else {
                        at += width;
                    }
                }
                if width == 1 {
                    break;
                }
                width /= 2;
            }
        }
        for i in 0..input.len() {
            // to 0, or down by powers of two, which keep an alignment
            for step in iter::once(input[i]).chain((0..64).rev().map(|k| 1 << k)) {
                while 0 < step && step <= input[i] && !late() {
                    let mut smaller = input.clone();
                    smaller[i] -= step;
                    if !differs(&smaller) {
                        break;
                    }
                    input = smaller;
                }
            }
        }
        if input == before || late() {
            return input;
        }
    }
}

/// 0 if x is y, 1 if it is one more, 2 if one less, 3 if two more and so on.
pub fn distance(x: u64, y: u64) -> u64 {
    let d = y.wrapping_sub(x) as i64;
    ((d << 1) ^ (d >> 63)) as u64
}

/// The x whose distance from y is d.
pub fn at_distance(d: u64, y: u64) -> u64 {
    y.wrapping_sub((d >> 1) ^ (d & 1).wrapping_neg())
}

/// A length, told by its distance from the one that is needed.
pub fn places(told: u64, need: usize) -> usize {
    let by = (told / 2).min(1 << 16) as usize;
    if told % 2 == 0 {
        need.saturating_sub(by)
    } else {
        need + by + 1
    }
}

/// A flat list of pairs in which each offset is told by its distance from the end of the last range
/// that is not empty.
pub fn apart(ranges: &[(u64, u64)]) -> Vec<u64> {
    let mut end = 0;
    let mut told = Vec::new();
    for &(offset, len) in ranges {
        told.extend([distance(offset, end), len]);
        if len > 0 {
            end = offset.wrapping_add(len);
        }
    }
    told
}

/// The flat list that is told so.
pub fn together(told: &[u64]) -> Vec<u64> {
    let mut end = 0;
    let mut ranges = Vec::new();
    for r in told.chunks_exact(2) {
        let offset = at_distance(r[0], end);
        ranges.extend([offset, r[1]]);
        if r[1] > 0 {
            end = offset.wrapping_add(r[1]);
        }
    }
    ranges
}

/// A text's beginning.
pub fn brief(text: String) -> String {
    match text.char_indices().nth(1200) {
        Some((end, _)) => format!("{} ..", &text[..end]),
        None => text,
    }
}

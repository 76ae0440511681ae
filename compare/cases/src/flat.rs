//! Lists of pairs as flat lists of numbers.

use crate::random::Random;

/// An odd list's last number is left out.
pub fn pairs(s: &[u64]) -> Vec<(u64, u64)> {
    s.chunks_exact(2).map(|c| (c[0], c[1])).collect()
}

pub fn flat(pairs: &[(u64, u64)]) -> Vec<u64> {
    pairs.iter().flat_map(|p| [p.0, p.1]).collect()
}

/// The numbers in decimal, each behind a space.
pub fn words(s: &[u64]) -> String {
    s.iter().map(|x| format!(" {x}")).collect()
}

/// A list in a sample: how many numbers, and the numbers.
pub fn list(numbers: &[u64]) -> String {
    format!("{}:{}", numbers.len(), words(numbers))
}

/// n extents in ascending order, of which `parts` in eight follow the one before.
pub fn spread(n: usize, parts: u64, random: &mut Random) -> Vec<u64> {
    let mut end = 0;
    let mut extents = Vec::new();
    for _ in 0..n {
        if random.below(8) >= parts {
            end += 4096;
        }
        let len = (1 + random.below(64)) * 4096;
        extents.push((end, len));
        end += len;
    }
    flat(&extents)
}

/// A range made of one drawn and another: equal to the other, touching it, up to its start or its end,
/// from its start, or as drawn.
pub fn beside(way: u64, (offset, len): (u64, u64), other: (u64, u64)) -> (u64, u64) {
    let end = other.0.saturating_add(other.1);
    match way {
        0 => other,
        1 => (end, len),
        2 => (offset.min(other.0), other.0.saturating_sub(offset)),
        3 => (offset, end.saturating_sub(offset)),
        4 => (other.0, len),
        _ => (offset, len),
    }
}

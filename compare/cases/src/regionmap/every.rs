//! Every sequence of a few calls with small numbers, and with numbers at the limits.

use super::sequence::{
    EXTEND, EXTENTS, FROM_EXTENTS, LOCATE, LOCATE_AMONG, PUBLISH_LEN, Sequence, Told, WITH_ROOM,
    plain,
};

const MAX: u64 = u64::MAX;

const LIMITS: [u64; 8] = [0, 1, 2, 3, 1 << 63, MAX - 2, MAX - 1, MAX];

/// What each sequence goes to.
type Check<'a> = &'a mut dyn FnMut(&Sequence) -> Result<(), String>;

/// Every list of n pairs of these offsets and lengths.
fn lists(n: usize, offsets: &[u64], lens: &[u64]) -> Vec<Vec<(u64, u64)>> {
    let mut all = vec![Vec::new()];
    for _ in 0..n {
        let mut longer = Vec::new();
        for list in &all {
            for &offset in offsets {
                longer.extend(
                    lens.iter()
                        .map(|&len| [&list[..], &[(offset, len)]].concat()),
                );
            }
        }
        all = longer;
    }
    all
}

/// A map without published bytes, with some room, extended by some extents.
fn extended(room: u64, extents: &[(u64, u64)]) -> Vec<Told> {
    let mut calls = vec![plain(FROM_EXTENTS, 0, 0), plain(WITH_ROOM, room, 0)];
    calls.extend(extents.iter().map(|e| plain(EXTEND, e.0, e.1)));
    calls
}

/// Up to three extents at the limits, with each length that may matter.
pub fn made_at_the_limits(check: Check) -> Result<(), String> {
    let lengths = [(0, 0), (0, 1), (1, 0), (1, 1), (0, 2)];
    let calls = lengths.map(|(from, by)| [FROM_EXTENTS, 0, 0, from, by, 0, 0]);
    for list in (0..=3).flat_map(|n| lists(n, &LIMITS, &LIMITS)) {
        check(&Sequence::new(list.len(), 0, &list, &calls))?;
    }
    Ok(())
}

/// One extent at the limits, extended twice there, with and without room.
pub fn extended_at_the_limits(check: Check) -> Result<(), String> {
    for list in lists(1, &LIMITS, &LIMITS) {
        for extensions in lists(2, &LIMITS, &LIMITS) {
            check(&Sequence::new(2, 0, &list, &extended(0, &extensions)))?;
            check(&Sequence::new(2, 0, &list, &extended(1, &extensions)))?;
        }
    }
    Ok(())
}

/// One extent at the limits, extended once there; then lengths published and ranges located there.
pub fn located_at_the_limits(check: Check) -> Result<(), String> {
    for list in lists(1, &LIMITS, &LIMITS) {
        for extension in lists(1, &LIMITS, &LIMITS) {
            let mut calls = extended(1, &extension);
            calls.extend(LIMITS.map(|len| plain(PUBLISH_LEN, len, 0)));
            for pos in LIMITS {
                calls.extend(LIMITS.map(|n| plain(LOCATE, pos, n)));
                calls.extend(LIMITS.map(|n| plain(LOCATE_AMONG, pos, n)));
            }
            check(&Sequence::new(2, 0, &list, &calls))?;
        }
    }
    Ok(())
}

/// Up to two extents of at most two bytes, extended once, with every length published and every
/// range located.
pub fn tiny(check: Check) -> Result<(), String> {
    for list in (0..=2).flat_map(|n| lists(n, &[0, 1, 2, 3], &[0, 1, 2])) {
        for extension in lists(1, &[0, 1, 2, 3, 4, 5, 6], &[0, 1, 2]) {
            for room in 0..=2 {
                let mut calls = extended(room, &extension);
                calls.push(plain(EXTENTS, 0, 0));
                let bytes: u64 = list.iter().chain(&extension).map(|e| e.1).sum();
                for data in 0..=bytes + 1 {
                    calls.push(plain(PUBLISH_LEN, data, 0));
                    for pos in 0..=data + 1 {
                        for n in 0..=data + 1 - pos {
                            calls.extend([LOCATE, LOCATE_AMONG].map(|call| plain(call, pos, n)));
                        }
                    }
                }
                check(&Sequence::new(2, 0, &list, &calls))?;
            }
        }
    }
    Ok(())
}

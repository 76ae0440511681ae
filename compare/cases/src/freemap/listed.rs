//! The differences that docs/DIFFERENCES.md lists, each on the input that it names.

use super::case::Case;
use super::sides::{by_ours, refused};
use crate::flat::pairs;
use oracle::free::Free;
use ours::free::Map;

/// `complement` of these ranges in the empty container, and so many slots for gaps: how many gaps
/// the Rust finds, where it can be given the list. Ours is refused with 1.
fn made(ranges: &[u64], slots: usize) -> Result<Option<usize>, String> {
    let mut lists = Case::new(0, 0, ranges, &[]).lists();
    lists.gaps.resize(slots, 5);
    let ours = by_ours(&lists);
    if ours != refused(&lists) {
        return Err(format!(
            "complement of {ranges:?} in {slots} slots gives {ours:?}"
        ));
    }
    let gaps = || Free::complement(0, 0, &mut pairs(ranges)).gaps().len();
    Ok((ranges.len() % 2 == 0).then(gaps))
}

/// The map of a container without ranges, and its gaps.
fn whole(table_end: u64, len: u64) -> (Free, Map, [u64; 2]) {
    let (mut map, mut gaps) = (Map { count: 0, tail: 0 }, [0; 2]);
    let refusal = ours::free::complement(table_end, len, &mut [], &mut gaps, &mut map);
    assert_eq!(refusal, 0);
    (Free::complement(table_end, len, &mut []), map, gaps)
}

/// How many listed differences were found as they are listed, or the first that was not.
pub fn compare() -> Result<usize, String> {
    // the ranges, the slots for gaps, how many gaps the Rust finds
    let makes: [(&[u64], usize, Option<usize>); 4] = [
        (&[0], 2, None),
        (&[], 0, Some(0)),
        (&[], 1, Some(0)),
        (&[0, 0], 2, Some(0)),
    ];
    for (ranges, slots, gaps) in makes {
        let found = made(ranges, slots)?;
        if found != gaps {
            return Err(format!("listed complement of {ranges:?}: found {found:?}"));
        }
    }
    // the container, the slots lent, align; the Rust's place for no byte, our refusal
    let fits = [
        ((0, 1), 0, 1, Some(0), 1),
        ((0, 1), 1, 1, Some(0), 1),
        ((0, 1), 0, 3, Some(0), 1),
        ((0, 0), 0, 0, None, 2),
        ((0, 1), 2, 0, Some(0), 2),
        ((1, 2), 2, 0, None, 2),
        ((1, 2), 2, 3, Some(1), 2),
    ];
    for ((table_end, len), slots, align, place, refusal) in fits {
        let (rust, map, gaps) = whole(table_end, len);
        let found = (
            rust.first_fit(0, align, 0),
            ours::free::first_fit(&map, &gaps[..slots], 0, align, 0),
        );
        if found != (place, (refusal, None)) {
            return Err(format!(
                "listed first_fit in {table_end} to {len}, align {align}, {slots} slots: found {found:?}"
            ));
        }
    }
    for slots in [0, 1] {
        let (rust, map, gaps) = whole(0, 1);
        let found = (
            rust.free_bytes(),
            ours::free::free_bytes(&map, &gaps[..slots]),
        );
        if found != (1, (1, 0)) {
            return Err(format!("listed free_bytes, {slots} slots: found {found:?}"));
        }
    }
    Ok(makes.len() + fits.len() + 2)
}

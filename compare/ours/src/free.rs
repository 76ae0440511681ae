//! The free map of crates/exports.

use crate::{FlatAnswer, FlatOption};

unsafe extern "C" {
    fn fundravai_complement(
        table_end: u64,
        len: u64,
        allocated: *mut u64,
        allocated_len: usize,
        gaps: *mut u64,
        gaps_len: usize,
        count: *mut usize,
        tail: *mut u64,
    ) -> u64;
    fn fundravai_first_fit(
        count: usize,
        tail: u64,
        gaps: *const u64,
        gaps_len: usize,
        len: u64,
        align: u64,
        skew: u64,
        refusal: *mut u64,
    ) -> FlatOption;
    fn fundravai_free_bytes(
        count: usize,
        tail: u64,
        gaps: *const u64,
        gaps_len: usize,
    ) -> FlatAnswer;
    fn fundravai_tail(count: usize, tail: u64) -> u64;
}

/// A free map: how many gaps it has, and tail. The gaps stand in a lent list.
#[derive(Clone, Copy, Debug, PartialEq)]
pub struct Map {
    pub count: usize,
    pub tail: u64,
}

/// Answers the refusal, 0 if accepted; then the map and its gaps are written.
pub fn complement(
    table_end: u64,
    len: u64,
    allocated: &mut [u64],
    gaps: &mut [u64],
    map: &mut Map,
) -> u64 {
    unsafe {
        fundravai_complement(
            table_end,
            len,
            allocated.as_mut_ptr(),
            allocated.len(),
            gaps.as_mut_ptr(),
            gaps.len(),
            &mut map.count,
            &mut map.tail,
        )
    }
}

/// Answers the refusal, 0 if accepted, and the place, if there is one.
pub fn first_fit(map: &Map, gaps: &[u64], len: u64, align: u64, skew: u64) -> (u64, Option<u64>) {
    let mut refusal = u64::MAX;
    let r = unsafe {
        fundravai_first_fit(
            map.count,
            map.tail,
            gaps.as_ptr(),
            gaps.len(),
            len,
            align,
            skew,
            &mut refusal,
        )
    };
    assert!(r.some <= 1, "first_fit answers some = {}", r.some);
    (refusal, (r.some == 1).then_some(r.value))
}

/// Answers the refusal, 0 if accepted, and how many bytes.
pub fn free_bytes(map: &Map, gaps: &[u64]) -> (u64, u64) {
    let r = unsafe { fundravai_free_bytes(map.count, map.tail, gaps.as_ptr(), gaps.len()) };
    (r.refusal, r.value)
}

pub fn tail(map: &Map) -> u64 {
    unsafe { fundravai_tail(map.count, map.tail) }
}

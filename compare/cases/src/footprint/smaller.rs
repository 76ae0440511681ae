//! Makes a record on which the two sides differ as small as it can.

use super::records::Case;
use crate::shrink::{at_distance, distance, shrink};
use ours::Record;

/// Lowers a record's numbers and drops extents for as long as `differs` still says so. A number that
/// hangs on others is told by its distance from where they put it, so that it follows them.
pub fn smallest(case: &Case, differs: fn(&Case) -> bool) -> Case {
    let (mut numbers, mut extents) = apart(case);
    loop {
        let before = (numbers.clone(), extents.clone());
        extents = shrink(extents, 2, |e| differs(&together(&numbers, e)));
        numbers = shrink(numbers, 0, |n| differs(&together(n, &extents)));
        if before == (numbers.clone(), extents.clone()) {
            return together(&numbers, &extents);
        }
    }
}

/// Where the header blocks and committed extents begin and end, and the sum of the lengths.
fn extremes(r: &Record, extents: &[u64]) -> (u64, u64, u64) {
    let block = 1 << r.log2_block.clamp(12, 16);
    let (mut low, mut high, mut sum) = (u64::MAX, 0, 0u64);
    let mut cover = |offset: u64, len: u64| {
        low = low.min(offset);
        high = high.max(offset.saturating_add(len));
    };
    cover(r.header_a, block);
    cover(r.header_b, block);
    for e in extents.chunks_exact(2).take(r.extent_count.into()) {
        cover(e[0], e[1]);
        sum = sum.wrapping_add(e[1]);
    }
    (low, high, sum)
}

fn end_of(extent: &[u64]) -> u64 {
    extent.iter().fold(0, |s, x| s.wrapping_add(*x))
}

/// Each offset becomes its distance from the end before it, the first from `end`.
fn offsets_apart(extents: &[u64], mut end: u64) -> Vec<u64> {
    let mut list = extents.to_vec();
    for (told, e) in list.chunks_mut(2).zip(extents.chunks(2)) {
        told[0] = distance(e[0], end);
        end = end_of(e);
    }
    list
}

fn offsets_together(told: &[u64], mut end: u64) -> Vec<u64> {
    let mut list = told.to_vec();
    for e in list.chunks_mut(2) {
        e[0] = at_distance(e[0], end);
        end = end_of(e);
    }
    list
}

/// The numbers of a record and its extents, told so.
fn apart(case: &Case) -> (Vec<u64>, Vec<u64>) {
    let r = &case.record;
    let block = 1 << r.log2_block.clamp(12, 16);
    let count = u64::from(r.extent_count);
    let listed = u64::from(r.header_extent_count);
    let (low, high, sum) = extremes(r, &case.extents);
    // data of about the capacity follows it
    let full = r.data_size.abs_diff(r.capacity) <= 1;
    let numbers = vec![
        r.log2_block.into(),
        distance(r.table_end, r.span_start),
        distance(r.file_len, r.span_end),
        r.region_id,
        u64::from(r.kind) - 1,
        r.flags.into(),
        distance(count, listed),
        r.header_a,
        distance(r.header_b, r.header_a.wrapping_add(block)),
        distance(r.span_start, low),
        distance(r.span_end, high),
        distance(r.data_size, if full { r.capacity } else { 0 }),
        distance(r.capacity, sum),
        r.footprint_seq,
        distance(r.header_region_id, r.region_id),
        u64::from(r.header_kind + 3 - r.kind) % 3,
        u64::from(r.header_flags ^ r.flags),
        u64::from(!r.header_ready),
        r.header_log2_block.into(),
        distance(listed, case.extents.len() as u64 / 2),
        distance(case.scratch as u64, 2 * count + 4),
        full.into(),
    ];
    let end = r.header_b.wrapping_add(block);
    (numbers, offsets_apart(&case.extents, end))
}

/// The record of such numbers and extents.
fn together(n: &[u64], extents: &[u64]) -> Case {
    let block = 1 << n[0].clamp(12, 16);
    let header_b = at_distance(n[8], n[7].wrapping_add(block));
    let extents = offsets_together(extents, header_b.wrapping_add(block));
    let listed = at_distance(n[19], extents.len() as u64 / 2) as u16;
    let mut r = Record {
        log2_block: n[0] as u8,
        table_end: 0,
        file_len: 0,
        region_id: n[3],
        kind: n[4] as u8 + 1,
        flags: n[5] as u8,
        extent_count: at_distance(n[6], listed.into()) as u16,
        header_a: n[7],
        header_b,
        span_start: 0,
        span_end: 0,
        data_size: 0,
        capacity: 0,
        footprint_seq: n[13],
        header_region_id: at_distance(n[14], n[3]),
        header_kind: ((n[4] + n[15]) % 3) as u8 + 1,
        header_flags: (n[5] ^ n[16]) as u8,
        header_ready: n[17] == 0,
        header_log2_block: n[18] as u8,
        header_extent_count: listed,
    };
    let (low, high, sum) = extremes(&r, &extents);
    r.span_start = at_distance(n[9], low);
    r.span_end = at_distance(n[10], high);
    r.table_end = at_distance(n[1], r.span_start);
    r.file_len = at_distance(n[2], r.span_end);
    r.capacity = at_distance(n[12], sum);
    r.data_size = at_distance(n[11], n[21] * r.capacity);
    let places = at_distance(n[20], 2 * u64::from(r.extent_count) + 4);
    Case {
        record: r,
        extents,
        scratch: places.min(20_000) as usize,
    }
}

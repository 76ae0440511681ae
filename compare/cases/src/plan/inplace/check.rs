//! Open's tests: the records by the Rust's `check_region`, then all of them by its `settle`.

use super::super::call::{EXTENTS, NAME, Opening, REGIONS, Range, Record};
use crate::flat::pairs;
use oracle::footprint::check_region;
use oracle::header::{header_bytes, header_view, kind};
use oracle::meta::{MetaError, RegionName, RegionState};
use oracle::meta2::{Entry2, EntryLimits, max_extents};
use oracle::settle::{Record as Settled, Regions, text};

/// Document 01's number for an error of the Rust.
fn number(error: MetaError) -> u64 {
    match error {
        MetaError::Field("region_id") => 5,
        MetaError::Field("kind") => 6,
        MetaError::Field("flags") => 7,
        MetaError::Field("state") => 8,
        MetaError::Field("extent_count") => 9,
        MetaError::Unaligned => 10,
        MetaError::Field("extent") => 11,
        MetaError::Field("capacity") => 12,
        MetaError::Overlap => 13,
        other => panic!("check_region answers {other:?}"),
    }
}

/// 1, 2 and 3, which the Rust does not have.
fn before_records(opening: &Opening) -> u64 {
    let Opening {
        limits,
        records,
        extents,
        scratch,
        lent,
    } = opening;
    let (mut listed, mut ranges) = (0, 0);
    for r in records {
        let counts = [r.entry.extent_count, r.header.extent_count].map(usize::from);
        if counts[0] > EXTENTS || counts[1] > max_extents(limits.log2_block) {
            return 1;
        }
        if usize::from(r.name.len) > NAME {
            return 1;
        }
        ranges += counts[0] + 2;
        listed += counts[1];
    }
    if lent.too_few()
        || records.len() > REGIONS
        || extents.len() != 2 * listed
        || scratch / 16 < ranges
    {
        return 1;
    }
    let log2_block = limits.log2_block;
    let logs = [log2_block, 9];
    if !(12..=16).contains(&log2_block)
        || records.iter().any(|r| !logs.contains(&r.header.log2_block))
    {
        return 2;
    }
    if limits.file_len < limits.table_end || limits.file_len >> 63 != 0 {
        return 3;
    }
    0
}

/// 4, which the Rust has elsewhere.
fn entry_refused(opening: &Opening, r: &Record, listed: &[Range]) -> bool {
    let (limits, e) = (&opening.limits, &r.entry);
    let block = limits.block();
    let inside = |at: u64| {
        let end = at.checked_add(block);
        at % block == 0 && e.span_start <= at && end.is_some_and(|end| end <= e.span_end)
    };
    let ordered = [limits.table_end, e.span_start, e.span_end, limits.file_len].is_sorted();
    let mut committed = listed.iter().take(usize::from(e.extent_count));
    !(ordered
        && inside(e.header_a)
        && inside(e.header_b)
        && e.header_a != e.header_b
        && e.data_size <= e.capacity
        && committed.all(|x| x.1 > 0))
}

/// The footprint of a record that passes, or its number.
fn checked(opening: &Opening, r: &Record, listed: &[Range]) -> Result<Vec<Range>, u64> {
    if entry_refused(opening, r, listed) {
        return Err(4);
    }
    let (e, h) = (&r.entry, &r.header);
    let entry = Entry2 {
        seq: 0,
        kind: kind(e.kind),
        flags: e.flags,
        compat_flags: 0,
        name: RegionName::new("region").expect("a name"),
        tag: r.tag,
        extent_count: e.extent_count,
        header_a: e.header_a,
        header_b: e.header_b,
        data_size: e.data_size,
        capacity: e.capacity,
        span_start: e.span_start,
        span_end: e.span_end,
        footprint_seq: e.footprint_seq,
    };
    let bytes = header_bytes(listed);
    let mut view = header_view(&bytes);
    view.header.region_id = h.region_id;
    view.header.kind = kind(h.kind);
    view.header.flags = h.flags;
    if !h.ready {
        view.header.state = RegionState::Released;
    }
    view.header.log2_block = h.log2_block;
    view.header.extent_count = h.extent_count;
    let limits = EntryLimits {
        log2_block: opening.limits.log2_block,
        table_end: opening.limits.table_end,
        file_len: opening.limits.file_len,
        page_meta_seq: u64::MAX,
    };
    let mut footprint = vec![(0, 0); usize::from(e.extent_count) + 2];
    check_region(r.number, &entry, &view, &limits, &mut footprint).map_err(number)?;
    Ok(footprint)
}

/// Each record's committed extents, or the number that open answers.
pub fn committed(opening: &Opening) -> Result<Vec<Vec<Range>>, u64> {
    let refusal = before_records(opening);
    if refusal != 0 {
        return Err(refusal);
    }
    let (mut at, mut lists, mut regions) = (0, Vec::new(), Vec::new());
    for r in &opening.records {
        let to = at + 2 * usize::from(r.header.extent_count);
        let mut listed = pairs(&opening.extents[at..to]);
        at = to;
        regions.push(Settled {
            seq: r.entry.footprint_seq,
            name: Some(text(r.name.text())),
            ranges: checked(opening, r, &listed)?,
        });
        listed.truncate(usize::from(r.entry.extent_count));
        lists.push(listed);
    }
    let mut numbers: Vec<u64> = opening.records.iter().map(|r| r.number).collect();
    numbers.sort_unstable();
    if numbers.windows(2).any(|n| n[0] == n[1]) {
        return Err(14);
    }
    // overlapped or renamed
    let marks = Regions::new(&regions, &[]).settle().marks();
    if marks.iter().any(|mark| mark & 3 != 0) {
        return Err(15);
    }
    Ok(lists)
}

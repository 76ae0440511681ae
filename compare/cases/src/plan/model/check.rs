//! Which number open answers, or 0.

use super::super::call::{EXTENTS, NAME, Opening, REGIONS, Range, Record, SLOT};
use super::super::mistake::Mistake::{self, *};
use super::super::mistake::first;
use super::region::{end, meet};
use crate::flat::pairs;

/// Each record's part of the headers' extents.
pub fn lists(opening: &Opening) -> Vec<Vec<Range>> {
    let all = pairs(&opening.extents);
    let mut rest = &all[..];
    let counts = opening.records.iter().map(|r| r.header.extent_count);
    counts
        .map(|count| {
            let (own, others) = rest.split_at(usize::from(count));
            rest = others;
            own.to_vec()
        })
        .collect()
}

/// A list too short, odd or not the headers' count, or a count over its limit.
fn lists_refused(opening: &Opening, mistake: Option<Mistake>) -> bool {
    let Opening {
        limits,
        records,
        extents,
        scratch,
        lent,
    } = opening;
    let mut lent = *lent;
    if mistake == Some(StartsUnasked) {
        lent.starts = usize::MAX;
    }
    let log2_block = limits.log2_block.clamp(12, 16);
    let most = ((1 << log2_block) - 192) / 16;
    let name = match mistake {
        Some(LongNameAllowed) => NAME + 1,
        _ => NAME,
    };
    let committed = EXTENTS + usize::from(mistake == Some(SixtyOneCommitted));
    let over = |r: &Record| {
        usize::from(r.entry.extent_count) > committed
            || usize::from(r.header.extent_count) > most && mistake != Some(HeaderCountUnbounded)
            || usize::from(r.name.len) > name
    };
    let listed: usize = records
        .iter()
        .map(|r| usize::from(r.header.extent_count))
        .sum();
    let let_through = match mistake {
        Some(OddListAllowed) => extents.len() == 2 * listed + 1,
        Some(LongListAllowed) => extents.len() == 2 * listed + 2,
        _ => false,
    };
    let headers = match mistake {
        Some(ScratchWithoutHeaders) => 0,
        _ => 2,
    };
    let ranges: usize = records
        .iter()
        .map(|r| usize::from(r.entry.extent_count) + headers)
        .sum();
    lent.too_few()
        || records.len() > REGIONS + usize::from(mistake == Some(SixtyFiveRecords))
        || records.iter().any(over)
        || extents.len() != 2 * listed && !let_through
        || *scratch < 16 * ranges
}

/// 4: the added entry checks.
fn entry_refused(opening: &Opening, r: &Record, committed: &[Range], m: Option<Mistake>) -> bool {
    let (limits, e) = (&opening.limits, &r.entry);
    let block = limits.block();
    let misplaced = |at: u64| {
        let to = match m {
            Some(HeaderEndWraps) => at.wrapping_add(block).into(),
            _ => u128::from(at) + u128::from(block),
        };
        at % block != 0 && m != Some(HeaderUnalignedAllowed)
            || at < e.span_start
            || to > e.span_end.into()
    };
    limits.table_end > e.span_start && m != Some(SpanBeforeTableAllowed)
        || e.span_start > e.span_end
        || e.span_end > limits.file_len && m != Some(SpanPastLengthAllowed)
        || misplaced(e.header_a)
        || misplaced(e.header_b)
        || e.header_a.abs_diff(e.header_b) < block && m != Some(HeadersMayMeet)
        || e.data_size > e.capacity && m != Some(DataPastCapacityAllowed)
        || committed.iter().any(|x| x.1 == 0) && m != Some(EmptyExtentAllowed)
}

/// 11 and 12, extent by extent.
fn extents_refused(opening: &Opening, r: &Record, committed: &[Range], m: Option<Mistake>) -> u64 {
    let e = &r.entry;
    let mut sum = 0u128;
    for &(offset, len) in committed {
        let to = match m {
            Some(ExtentEndWraps) => offset.wrapping_add(len).into(),
            _ => u128::from(offset) + u128::from(len),
        };
        if to > u64::MAX.into()
            || to > e.span_end.into()
            || offset < e.span_start && m != Some(SpanStartUnasked)
            || offset < opening.limits.table_end
        {
            return 11;
        }
        sum += u128::from(len);
        if m == Some(SumWraps) {
            sum %= 1 << 64;
        }
        if sum > u64::MAX.into() && m != Some(SumTestedLast) {
            return 12;
        }
    }
    if sum == e.capacity.into() { 0 } else { 12 }
}

/// The lowest number from 4 to 13 that applies to a record by itself.
fn record_refused(opening: &Opening, r: &Record, listed: &[Range], m: Option<Mistake>) -> u64 {
    let (e, h) = (&r.entry, &r.header);
    let count = usize::from(e.extent_count);
    let committed = &listed[..count.min(listed.len())];
    let entry_extents = match m {
        Some(EmptyExtraRefused) => listed,
        _ => committed,
    };
    let more = match e.kind {
        SLOT if m != Some(SlotMayListMore) => 0,
        _ => 1,
    };
    let log2_block = match m {
        Some(DataByContainerBlock) => opening.limits.log2_block,
        _ => h.log2_block,
    };
    let sum: u128 = committed.iter().map(|x| u128::from(x.1)).sum();
    let tests = [
        (4, entry_refused(opening, r, entry_extents, m)),
        (5, h.region_id != r.number),
        (6, h.kind != e.kind),
        (7, h.flags != e.flags),
        (8, !h.ready),
        (9, listed.len() < count || listed.len() > count + more),
        (10, e.data_size % (1 << log2_block.min(16)) != 0),
        (
            12,
            m == Some(CapacityBeforeExtents) && sum != e.capacity.into(),
        ),
    ];
    let checked = match m {
        Some(ExtraChecked) => listed,
        _ => committed,
    };
    let refusal = match first(&tests, "open", m) {
        0 => extents_refused(opening, r, checked, m),
        number => number,
    };
    if refusal != 0 {
        return refusal;
    }
    let footprint = footprint(opening, r, listed);
    let touch = |a: Range, b: Range| m == Some(TouchingOverlaps) && end(a) == b.0;
    let overlaps = (0..footprint.len()).any(|i| {
        let one = footprint[i];
        let others = footprint.iter().enumerate().filter(|(j, _)| *j != i);
        others
            .into_iter()
            .any(|(_, &other)| meet(one, other) || touch(one, other))
    });
    if overlaps { 13 } else { 0 }
}

fn footprint(opening: &Opening, r: &Record, listed: &[Range]) -> Vec<Range> {
    let block = opening.limits.block();
    let headers = [(r.entry.header_a, block), (r.entry.header_b, block)];
    let committed = usize::from(r.entry.extent_count).min(listed.len());
    [&headers, &listed[..committed]].concat()
}

/// Whether two names are the same.
fn same_name(a: &Record, b: &Record, m: Option<Mistake>) -> bool {
    match m {
        Some(NamesUnsettled) => false,
        Some(NamesPadded) => a.name.bytes == b.name.bytes,
        _ => a.name == b.name,
    }
}

/// Whether settlement marks a region. No range of a region meets another of its own by now.
fn marked(opening: &Opening, lists: &[Vec<Range>], m: Option<Mistake>) -> bool {
    let records = &opening.records;
    let footprints: Vec<Vec<Range>> = records
        .iter()
        .zip(lists)
        .map(|(r, listed)| footprint(opening, r, listed))
        .collect();
    (0..records.len()).any(|i| {
        let seq = records[i].entry.footprint_seq;
        (0..records.len()).filter(|j| *j != i).any(|j| {
            let other = records[j].entry.footprint_seq;
            let outranks = match m {
                Some(EqualNumbersUnmarked) => other > seq,
                _ => other >= seq,
            };
            let meets = |&a: &Range| footprints[j].iter().any(|&b| meet(a, b));
            let overlapped = || footprints[i].iter().any(meets) && m != Some(OverlapsUnsettled);
            outranks && (same_name(&records[i], &records[j], m) || overlapped())
        })
    })
}

/// 14: two records have one number.
fn share_number(records: &[Record]) -> bool {
    (0..records.len()).any(|i| records[..i].iter().any(|r| r.number == records[i].number))
}

pub fn refusal(opening: &Opening, m: Option<Mistake>) -> u64 {
    let limits = &opening.limits;
    let log2_block = limits.log2_block;
    let other_log = |r: &Record| ![log2_block, 9].contains(&r.header.log2_block);
    let other_log = opening.records.iter().any(other_log) && m != Some(HeaderLogAnyAllowed);
    let most = match m {
        Some(LengthUnbounded) => u64::MAX,
        _ => (1 << 63) - 1,
    };
    let below = limits.file_len < limits.table_end && m != Some(LengthBelowTableAllowed);
    let logs = match m {
        Some(LogSeventeenAllowed) => 12..=17,
        _ => 12..=16,
    };
    let tests = [
        (1, lists_refused(opening, m)),
        (2, !logs.contains(&log2_block) || other_log),
        (3, below || limits.file_len > most),
    ];
    let refusal = first(&tests, "open", m);
    if refusal != 0 {
        return refusal;
    }
    let shared = share_number(&opening.records);
    if shared && m == Some(NumbersBeforeRecords) {
        return 14;
    }
    let lists = lists(opening);
    let own = opening.records.iter().zip(&lists);
    let mut failed = own
        .map(|(r, listed)| record_refused(opening, r, listed, m))
        .filter(|number| *number != 0);
    let failed = match m {
        Some(LowestOfAnyRecord) => failed.min(),
        _ => failed.next(),
    };
    if let Some(number) = failed {
        return number;
    }
    let tests = [(14, shared), (15, marked(opening, &lists, m))];
    first(&tests, "open", m)
}

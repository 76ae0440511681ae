//! What spoils an open: one change for each of its refusals.

use super::call::{Record, SLOT};
use super::records::{LONGEST, one};
use super::sequence::{Told, lent_by};
use crate::random::Random;

/// A block, if only of a log beside the range.
fn block_of(told: &Told) -> u64 {
    1 << told.limits.log2_block.clamp(12, 16)
}

/// A log that is not in this list.
fn other_log(logs: &[u8], random: &mut Random) -> u8 {
    let any = random.next() as u8;
    let all = [8, 9, 10, 11, 12, 13, 14, 15, 16, 17, 0, 255, any];
    let others: Vec<u8> = all.into_iter().filter(|log| !logs.contains(log)).collect();
    one(&others, random)
}

/// 1: a list too short, odd or of another count, or a count over its limit.
fn lists(told: &mut Told, i: usize, random: &mut Random) {
    let most = ((1 << told.limits.log2_block.clamp(12, 16)) - 192) / 16;
    let ways = if told.records.is_empty() { 2 } else { 8 };
    match random.below(ways) {
        0 => {
            let by = one(&[1, 2, 100, 3840, 1 << 20], random);
            told.lent = lent_by(random.below(3), 2 * by);
        }
        1 => told.list = 1 + random.below(4),
        2 => told.scratch = 2 * (1 + random.below(40)),
        3 => told.records[i].0.entry.extent_count = one(&[61, 62, 255, 256, u16::MAX], random),
        4 => {
            let (record, extents) = &mut told.records[i];
            record.header.extent_count = most + 1;
            extents.resize(2 * usize::from(most + 1), 4096);
        }
        5 => told.records[i].0.name.len = one(&[25, 26, 48, 255], random),
        _ => {
            while told.records.len() < 65 {
                told.records.push(told.records[i].clone());
            }
        }
    }
}

/// 4: the added entry checks.
fn entry(told: &mut Told, i: usize, random: &mut Random) {
    let limits = told.limits;
    let block = limits.block();
    let (r, extents) = &mut told.records[i];
    let e = &mut r.entry;
    match random.below(12) {
        0 if limits.table_end > 0 => e.span_start = limits.table_end - 1,
        1 => e.span_start = e.span_end.wrapping_add(1),
        2 => e.span_end = limits.file_len.wrapping_add(1),
        3 => e.span_end = u64::MAX,
        4 => e.header_a = e.header_a.wrapping_add(one(&[1, 512, block / 2], random)),
        5 => e.header_b = e.header_a,
        6 => e.header_b = e.span_end / block * block,
        7 => e.span_start = e.header_a.min(e.header_b).wrapping_add(1),
        // its end is 2^64
        10 => e.header_b = u64::MAX / block * block,
        8 => e.span_end = e.header_a.max(e.header_b).wrapping_add(block - 1),
        9 if !extents.is_empty() && e.extent_count > 0 => {
            let k = random.below((extents.len() as u64 / 2).min(e.extent_count.into())) as usize;
            let len = extents[2 * k + 1];
            extents[2 * k + 1] = 0;
            e.capacity = e.capacity.wrapping_sub(len);
            e.data_size = e.data_size.min(e.capacity) >> 16 << 16;
        }
        _ => e.data_size = e.capacity.wrapping_add(1),
    }
}

/// 9: a count of extents that is not allowed.
fn count(told: &mut Told, i: usize, random: &mut Random) {
    let (r, extents) = &mut told.records[i];
    let most = ((1 << told.limits.log2_block.clamp(12, 16)) - 192) / 16;
    let n = r.entry.extent_count;
    let listed = match random.below(4) {
        0 if n > 0 => n - 1,
        1 => {
            r.entry.kind = SLOT;
            r.header.kind = SLOT;
            n + 1
        }
        2 => most,
        _ => n + 2,
    };
    r.header.extent_count = listed;
    extents.resize(2 * usize::from(listed), 4096);
}

/// 11: an extent that passes 2^64 - 1, ends or starts outside the span or before the table's end.
fn outside(told: &mut Told, i: usize, k: usize, random: &mut Random) {
    let (r, extents) = &mut told.records[i];
    let e = &r.entry;
    let len = extents[2 * k + 1];
    extents[2 * k] = match random.below(4) {
        0 => u64::MAX - random.below(2),
        1 => e.span_end.wrapping_sub(len).wrapping_add(1),
        2 => e.span_end,
        _ => e.span_start.wrapping_sub(1),
    };
}

/// 12: extents that are not the capacity, or whose sum passes 2^64 - 1, perhaps before one that is
/// outside.
fn sum(told: &mut Told, i: usize, random: &mut Random) {
    let (r, extents) = &mut told.records[i];
    let e = &mut r.entry;
    let n = usize::from(e.extent_count).min(extents.len() / 2);
    if n < 3 || random.below(2) == 0 {
        match random.below(2) {
            0 => e.capacity = e.capacity.wrapping_add(one(&[1, 512, 1 << 16], random)),
            _ => e.capacity = e.capacity.saturating_sub(1).max(e.data_size),
        }
        return;
    }
    told.limits.file_len = LONGEST;
    (e.span_start, e.span_end) = (told.limits.table_end, LONGEST);
    let len = LONGEST - told.limits.table_end;
    for pair in extents[..6].chunks_exact_mut(2) {
        pair.copy_from_slice(&[told.limits.table_end, len]);
    }
    let sum: u128 = extents[..2 * n]
        .chunks_exact(2)
        .map(|e| u128::from(e[1]))
        .sum();
    e.capacity = match random.below(2) {
        0 => u64::MAX,
        // the sum without what passes
        _ => sum as u64,
    };
    e.data_size = 0;
    if n > 3 && random.below(2) == 0 {
        extents[6] = u64::MAX;
    }
}

/// 13: an extent upon another range of its own region.
fn upon_own(told: &mut Told, i: usize, k: usize, random: &mut Random) {
    let block = block_of(told);
    let (r, extents) = &mut told.records[i];
    let e = &mut r.entry;
    let n = u64::from(e.extent_count).min(extents.len() as u64 / 2);
    let other = 2 * random.below(n) as usize;
    let (offset, len) = (extents[other], extents[other + 1]);
    let own = extents[2 * k + 1];
    let at = match random.below(5) {
        0 => e.header_a,
        1 => e.header_b.wrapping_add(block - 1),
        2 => e.header_b.wrapping_add(1).saturating_sub(own),
        3 => offset.wrapping_add(len).saturating_sub(1),
        _ => offset,
    };
    extents[2 * k] = at.clamp(e.span_start, e.span_end.wrapping_sub(own).max(e.span_start));
}

/// 15: a name or some bytes that another region has. Numbers are equal as often as not.
fn upon_other(told: &mut Told, i: usize, random: &mut Random) {
    let j = random.below(told.records.len() as u64) as usize;
    let other: Record = told.records[j].0;
    let block = block_of(told);
    let (r, extents) = &mut told.records[i];
    let e = &mut r.entry;
    if random.below(2) == 0 {
        e.footprint_seq = other.entry.footprint_seq;
    }
    if random.below(3) == 0 || e.extent_count == 0 || extents.len() < 2 {
        r.name = other.name;
        // behind a name anything may stand
        r.name.bytes[other.name.text().len()..].fill(random.next() as u8);
        return;
    }
    let at = match random.below(3) {
        0 => other.entry.header_a,
        1 => other.entry.header_a.wrapping_add(block - 1),
        _ => other
            .entry
            .header_b
            .wrapping_add(1)
            .saturating_sub(extents[1]),
    };
    extents[0] = at.max(told.limits.table_end);
    e.span_start = e.span_start.min(extents[0]);
    let end = extents[0].wrapping_add(extents[1]);
    e.span_end = e.span_end.max(end);
    told.limits.file_len = told.limits.file_len.max(end);
}

/// One change for which this number is meant, where the records allow it.
pub fn spoil(told: &mut Told, number: u64, random: &mut Random) {
    if told.records.is_empty() && number > 3 {
        return;
    }
    let i = random.below(told.records.len().max(1) as u64) as usize;
    let committed = |(r, extents): &(Record, Vec<u64>)| {
        u64::from(r.entry.extent_count).min(extents.len() as u64 / 2)
    };
    let n = told.records.get(i).map_or(0, committed);
    match number {
        1 => lists(told, i, random),
        2 if told.records.is_empty() || random.below(2) == 0 => {
            told.limits.log2_block = other_log(&[12, 13, 14, 15, 16], random);
        }
        2 => {
            let logs = [9, told.limits.log2_block];
            told.records[i].0.header.log2_block = other_log(&logs, random);
        }
        3 => match random.below(3) {
            0 if told.limits.table_end > 0 => told.limits.file_len = told.limits.table_end - 1,
            1 => told.limits.file_len = u64::MAX,
            _ => told.limits.file_len = LONGEST + 1,
        },
        4 => entry(told, i, random),
        5 => told.records[i].0.header.region_id ^= 1 << random.below(64),
        6 => {
            let header = &mut told.records[i].0.header;
            header.kind = 1 + header.kind % 3;
        }
        7 => told.records[i].0.header.flags ^= 1 << random.below(8),
        8 => told.records[i].0.header.ready = false,
        9 => count(told, i, random),
        10 => {
            let e = &mut told.records[i].0.entry;
            // half a block of the container may be whole ones of the header's
            let by = one(&[1, 511, 512, 2048], random);
            e.data_size = match e.data_size {
                0 if e.capacity >= by => by,
                size => size.saturating_sub(by),
            };
        }
        11 if n > 0 => outside(told, i, random.below(n) as usize, random),
        12 => sum(told, i, random),
        13 if n > 0 => upon_own(told, i, random.below(n) as usize, random),
        14 => {
            let j = random.below(told.records.len() as u64) as usize;
            let other = told.records[j].0.number;
            let record = &mut told.records[i].0;
            (record.number, record.header.region_id) = (other, other);
        }
        15 => upon_other(told, i, random),
        _ => {}
    }
}

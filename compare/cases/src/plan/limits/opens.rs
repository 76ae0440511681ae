//! Opens with records at their limits, and every two of the refusals at once.

use super::super::Check;
use super::super::call::{EXTENTS, REGIONS, Range, Record, SLOT};
use super::super::draw::Drawing;
use super::super::records::{LONGEST, of_counts};
use super::super::sequence::{CLEAR_CAP, CREATE, LOCATE, name, named, plain};
use super::super::side::Side;
use super::super::spoil::spoil;
use super::{MAX, create, drop, grow, list, locates, publish, set_cap};
use crate::random::Random;

/// The last number at and just below 2^64 - 1, from records.
pub fn last_numbers(random: &mut Random, check: Check) -> Result<(), String> {
    for below in 0..3 {
        for _ in 0..20 {
            let mut opening = of_counts(&[1, 1, 0], 12, random);
            let place = random.below(3) as usize;
            opening.records[place].0.entry.footprint_seq = MAX - below;
            opening.limits.file_len = LONGEST;
            let held = opening.records[0].0.number;
            let name = (0..28 * 5).find(|&told| name(told) == opening.records[0].0.name.text());
            let mut plan = Drawing::new(opening);
            plan.then(set_cap(40, 0));
            plan.then(plain(CREATE, held, 40, named(1, 1)));
            plan.then(plain(CREATE, 1 << 50, 40, name.unwrap_or(0)));
            (0..4).for_each(|k| plan.then(create((1 << 50) + k, 40 + k)));
            plan.then(grow(held));
            plan.then(drop(held));
            plan.then(create(held, 0));
            check(&plan.case)?;
        }
    }
    Ok(())
}

/// Records of each kind with header log 9 and with the container's; slots do not grow.
pub fn kinds(random: &mut Random, check: Check) -> Result<(), String> {
    for kind in 1..=SLOT {
        for log2_block in [9, 14] {
            for count in [0, 1, 2, 59, EXTENTS] {
                let mut opening = of_counts(&[count, 2], 14, random);
                let (record, extents): &mut (Record, Vec<u64>) = &mut opening.records[0];
                record.entry.data_size = 0;
                (record.entry.kind, record.header.kind) = (kind, kind);
                record.header.log2_block = log2_block;
                record.header.extent_count = count as u16;
                extents.truncate(2 * count);
                let (id, tag) = (record.number, record.tag.into());
                let capacity = record.entry.capacity;
                let mut plan = Drawing::new(opening);
                plan.then(grow(id));
                plan.then(set_cap(tag, 0));
                plan.then(grow(id));
                plan.then(plain(CLEAR_CAP, tag, 0, 0));
                let half = capacity / 2;
                for len in [
                    0,
                    512,
                    1024,
                    1 << 14,
                    half,
                    half >> 9 << 9,
                    half >> 14 << 14,
                ] {
                    plan.then(publish(id, len));
                }
                for unit in [1, 512, 1 << 14] {
                    plan.then(publish(id, capacity / unit * unit));
                    plan.then(publish(id, (capacity / unit + 1) * unit));
                }
                locates(&mut plan, id);
                plan.then(grow(id));
                plan.then(drop(id));
                plan.then(grow(id));
                check(&plan.case)?;
            }
        }
    }
    Ok(())
}

/// Extras over free bytes, which are then taken, and at the last extent that is committed.
pub fn extras(random: &mut Random, check: Check) -> Result<(), String> {
    for count in [0, 1, 2, EXTENTS - 1, EXTENTS] {
        for _ in 0..8 {
            let mut opening = of_counts(&[count], 12, random);
            opening.limits.file_len = LONGEST;
            let end = opening.records[0].0.entry.span_end.min(1 << 62);
            let extra: Range = ((end / 4096 + 1) * 4096, 64 * 4096);
            let (record, extents) = &mut opening.records[0];
            record.entry.span_end =
                end.max(record.entry.header_a.max(record.entry.header_b) + 4096);
            (record.entry.kind, record.header.kind) = (2, 2);
            extents.truncate(2 * count);
            extents.extend([extra.0, extra.1]);
            record.header.extent_count = count as u16 + 1;
            let id = record.number;
            let mut plan = Drawing::new(opening);
            plan.then(grow(id));
            plan.then(create(1 << 42, 1));
            plan.then(grow(1 << 42));
            let capacity = plan.plan.region(0).0.entry.capacity;
            plan.then(publish(id, capacity >> 12 << 12));
            locates(&mut plan, id);
            check(&plan.case)?;
        }
    }
    Ok(())
}

/// Every two of open's refusals at once, in one record or in two.
pub fn refusals(random: &mut Random, check: Check) -> Result<(), String> {
    for x in 0..=15 {
        for y in 0..=15 {
            for i in 0..16 {
                let counts = [[4, 3, 0], [1, 4, 2], [5, 5, 5], [3, 0, 0]][i % 4];
                let regions = if i < 4 { 1 } else { 3 };
                let log2_block = 12 + (i % 5) as u8;
                let mut told = of_counts(&counts[..regions], log2_block, random);
                spoil(&mut told, x, random);
                spoil(&mut told, y, random);
                check(&list(told, &[create(1 << 41, 3), grow(1 << 41)]))?;
            }
        }
    }
    Ok(())
}

/// Full tables of which some regions go and others come and grow.
pub fn replaced(random: &mut Random, check: Check) -> Result<(), String> {
    for most in [0, 3, EXTENTS] {
        for every in 2..5 {
            let counts: Vec<usize> = (0..REGIONS).map(|i| most - i % (most + 1) / 8).collect();
            let mut opening = of_counts(&counts, 12, random);
            opening.limits.file_len = LONGEST;
            let held: Vec<u64> = opening.records.iter().map(|r| r.0.number).collect();
            let mut plan = Drawing::new(opening);
            let gone = || held.iter().step_by(every).take(12);
            gone().for_each(|&id| plan.then(drop(id)));
            for k in 0..gone().count() as u64 + 1 {
                plan.then(create((1 << 43) + k, k));
            }
            for (k, &other) in (0..12).zip(held.iter().skip(1)) {
                for id in [(1 << 43) + k, (1 << 43) + k / 2, other] {
                    plan.then(grow(id));
                    plan.then(publish(id, 8 * 4096));
                    plan.then(plain(LOCATE, id, 4096 * k, 1));
                }
            }
            check(&plan.case)?;
        }
    }
    Ok(())
}

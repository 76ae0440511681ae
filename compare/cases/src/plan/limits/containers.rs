//! Containers of every size, filled, in pieces, and regions of all the extents there may be.

use super::super::Check;
use super::super::call::EXTENTS;
use super::super::draw::{Drawing, locate};
use super::super::records::LONGEST;
use super::super::sequence::{LOCATE, Told, ToldCall, plain};
use super::super::side::Side;
use super::{MAX, create, drop, grow, list, locates, longest, publish};
use crate::random::Random;

/// Block logs, table ends and lengths, each with a few calls.
pub fn containers(check: Check) -> Result<(), String> {
    for log2_block in [0, 9, 11, 12, 13, 14, 15, 16, 17, 63, 64, 255] {
        let block = 1 << log2_block.clamp(12, 16);
        let up = |x: u64| x.div_ceil(block) * block;
        let far = [LONGEST - 40 * block, LONGEST - 1, LONGEST, LONGEST + 1, MAX];
        let near = [0, 1, block - 1, block, block + 1, 3 * block + 5];
        for table_end in near.into_iter().chain(far) {
            let from = |bytes: u64| up(table_end.min(LONGEST)).wrapping_add(bytes);
            let lens = [
                table_end.wrapping_sub(1),
                table_end,
                table_end.wrapping_add(1),
                from(2 * block - 1),
                from(2 * block),
                from(2 * block + 1),
                from(18 * block - 1),
                from(18 * block),
                from(20 * block),
                LONGEST - 1,
                LONGEST,
                LONGEST + 1,
                MAX,
            ];
            for len in lens {
                let calls = [
                    create(1, 1),
                    grow(1),
                    create(MAX, MAX),
                    publish(1, 16 * block),
                    publish(1, 1 << 63),
                    publish(1, MAX / block * block),
                    plain(LOCATE, 1, 16 * block - 1, 1),
                    plain(LOCATE, 1, 16 * block, 0),
                    plain(LOCATE, 1, 16 * block, 1),
                    drop(1),
                    create(1, 1),
                    grow(1),
                ];
                check(&list(Told::empty(log2_block, table_end, len), &calls))?;
            }
        }
    }
    Ok(())
}

/// All the extents there may be, and one more: in one run, in as many runs, in turn with others, or the
/// first of them at byte 0.
pub fn extents(check: Check) -> Result<(), String> {
    for log2_block in [12, 13, 16] {
        for others in 0..4 {
            let mut plan = Drawing::new(longest(log2_block));
            if others == 3 {
                plan = Drawing::new(Told::empty(log2_block, 0, LONGEST));
                plan.then(create(50, 0));
                plan.then(grow(50));
            }
            plan.then(create(0, 0));
            plan.then(drop(50));
            for k in 0..=EXTENTS as u64 {
                plan.then(grow(0));
                match others {
                    0 => {}
                    1 if k % 2 == 0 => {
                        plan.then(create(100 + k, 1));
                    }
                    1 => {}
                    _ => {
                        plan.then(create(100, 1));
                        plan.then(grow(100));
                    }
                }
            }
            for part in [3, 1] {
                let capacity = plan.plan.region(0).0.entry.capacity;
                let unit = 1 << log2_block;
                plan.then(publish(0, capacity / part / unit * unit));
                locates(&mut plan, 0);
            }
            plan.then(publish(0, 0));
            plan.then(drop(100));
            plan.then(grow(0));
            check(&plan.case)?;
        }
    }
    Ok(())
}

/// Containers that fill up to the last byte, or lack one.
pub fn full(check: Check) -> Result<(), String> {
    let block = 4096;
    for table_end in [0, 100, 8192] {
        for blocks in [2, 4, 18, 34, 36, 66, 68] {
            for by in [-1, 0, 1] {
                let start = u64::div_ceil(table_end, block) * block;
                let len = (start + blocks * block).wrapping_add_signed(by);
                let mut plan = Drawing::new(Told::empty(12, table_end, len));
                for call in [
                    create(1, 0),
                    grow(1),
                    grow(1),
                    grow(1),
                    create(2, 0),
                    grow(2),
                ] {
                    plan.then(call);
                }
                (3..9).for_each(|id| plan.then(create(id, id)));
                for call in [drop(1), grow(2), create(1, 0), create(9, 9), grow(1)] {
                    plan.then(call);
                }
                check(&plan.case)?;
            }
        }
    }
    Ok(())
}

/// A container in pieces: holes of two blocks and of steps, filled again from the lowest.
pub fn fragments(random: &mut Random, check: Check) -> Result<(), String> {
    for every in 2..6 {
        for blocks in [400, 1200, 40_000] {
            let mut plan = Drawing::new(Told::empty(12, 5000, blocks * 4096 + 77));
            for id in 0..40 {
                plan.then(create(id, id % 3));
                for _ in 0..id % 4 {
                    plan.then(grow(id));
                }
            }
            (0..40)
                .filter(|id| id % every == 1)
                .for_each(|id| plan.then(drop(id)));
            for round in 0..4 {
                for id in 0..40 {
                    match (id + round) % 5 {
                        0 => plan.then(create(100 + 40 * round + id, 1)),
                        _ => plan.then(grow(id)),
                    };
                }
                for _ in 0..20 {
                    if let Some((record, extents)) = plan.region(random) {
                        plan.then(publish(record.number, record.entry.capacity));
                        plan.then(locate(&record, &extents, random));
                    }
                }
                (0..40)
                    .filter(|id| id % 7 == round)
                    .for_each(|id| plan.then(drop(id)));
            }
            check(&plan.case)?;
        }
    }
    Ok(())
}

/// Extents that follow each other in the file, beside a region, behind it or before it.
pub fn joins(check: Check) -> Result<(), String> {
    // what is done between two grows of the first region
    let between: [&[ToldCall]; 5] = [
        &[],
        &[create(2, 1)],
        &[create(2, 1), drop(2)],
        &[create(2, 1), grow(2), create(3, 1), drop(2)],
        &[drop(9)],
    ];
    for first in between {
        for second in between {
            let mut plan = Drawing::new(Told::empty(12, 0, 4096 * 4096));
            // a hole in front, where the fourth extent fits
            let front = [create(9, 9), grow(9), grow(9), grow(9), create(1, 0)];
            let back = [grow(1), grow(1), drop(9), grow(1)];
            let one = [grow(1)];
            let parts = [&front[..], &one, first, &one, second, &back];
            for told in parts.concat() {
                plan.then(told);
            }
            for len in [16, 17, 32, 40, 64, 1 << 20] {
                plan.then(publish(1, len * 4096));
                locates(&mut plan, 1);
            }
            check(&plan.case)?;
        }
    }
    Ok(())
}

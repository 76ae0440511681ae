//! Regions, tags, caps, names and lent lists at their limits.

use super::super::Check;
use super::super::call::{REGIONS, TAGS};
use super::super::draw::Drawing;
use super::super::records::{drawn, of_counts};
use super::super::sequence::{CLEAR_CAP, CREATE, LOCATE, SET_CAP, Told, lent_by, named, plain};
use super::super::side::Side;
use super::{MAX, by_number, create, drop, grow, list, longest, publish, set_cap};
use crate::random::Random;

/// All the regions there may be, and one more; numbers and names are used again after a drop.
pub fn regions(random: &mut Random, check: Check) -> Result<(), String> {
    let end = |plan: &mut Drawing, held: u64, name: u64| {
        let n = 1 << 40;
        plan.then(plain(CREATE, held, 0, name));
        plan.then(plain(CREATE, n, 0, name));
        plan.then(plain(CREATE, n, 1 << 20, named(n, 3)));
        plan.then(plain(SET_CAP, 7, 0, 0));
        plan.then(plain(CREATE, n, 7, named(n, 3)));
        plan.then(plain(CREATE, n, 0, named(n, 25)));
        plan.then(drop(held));
        plan.then(plain(CREATE, n, 7, named(n, 3)));
        plan.then(plain(CREATE, held, 0, name));
        plan.then(create(n, 0));
        plan.then(drop(held));
        plan.then(plain(CREATE, n, 0, name));
    };
    for most in [REGIONS as u64 - 1, REGIONS as u64, REGIONS as u64 + 1] {
        let mut plan = Drawing::new(longest(12));
        (0..most).for_each(|id| plan.then(create(id, id % 5)));
        end(&mut plan, 3, by_number(3));
        check(&plan.case)?;
        for _ in 0..6 {
            let mut plan = Drawing::new(drawn(most as usize, 3, random));
            let held = plan.region(random).map_or(0, |r| r.0.number);
            end(&mut plan, held, named(1, 2));
            check(&plan.case)?;
        }
    }
    Ok(())
}

/// All the tags there may be, and one more, by caps, by creates and from open; rows outlast regions,
/// and no refused call makes one.
pub fn tags(random: &mut Random, check: Check) -> Result<(), String> {
    for by_cap in [0, 20, 33, 96, 97] {
        let mut plan = Drawing::new(longest(12));
        for tag in 0..=TAGS as u64 {
            match tag < by_cap {
                true if tag % 2 == 0 => plan.then(set_cap(tag, 1 << 40)),
                true => plan.then(plain(CLEAR_CAP, tag, 0, 0)),
                false => plan.then(create(tag, tag)),
            };
            if tag >= by_cap && tag % 2 == 1 {
                plan.then(drop(tag));
            }
        }
        for tag in [95, 96, 97, 0, MAX] {
            plan.then(set_cap(tag, 0));
            plan.then(plain(CLEAR_CAP, tag, 0, 0));
            plan.then(create(1000 + tag % 1000, tag));
            // a name and a number that are held
            plan.then(plain(CREATE, 5000, tag, by_number(1000)));
            plan.then(plain(CREATE, 1000, tag, by_number(1000)));
        }
        check(&plan.case)?;
    }
    // no room for a region: refused creates leave no row
    let mut plan = Drawing::new(Told::empty(12, 0, 8191));
    (0..2 * TAGS as u64).for_each(|tag| plan.then(create(tag, tag)));
    (0..=TAGS as u64).for_each(|tag| plan.then(set_cap(1000 + tag, 1)));
    check(&plan.case)?;
    let mut opening = of_counts(&[0; REGIONS], 12, random);
    for (i, (record, _)) in opening.records.iter_mut().enumerate() {
        record.tag = i as u32;
    }
    // first tags of no record, then all of them
    for first in [REGIONS as u64, 0] {
        let mut plan = Drawing::new(opening.clone());
        (first..=TAGS as u64).for_each(|tag| plan.then(set_cap(tag, 1)));
        check(&plan.case)?;
    }
    Ok(())
}

/// Caps at, one below and one above what a create or a grow comes to.
pub fn caps(check: Check) -> Result<(), String> {
    for log2_block in [12, 16] {
        let block = 1u64 << log2_block;
        for by in [-1, 0, 1] {
            let mut plan = Drawing::new(longest(log2_block));
            plan.then(set_cap(7, (2 * block).wrapping_add_signed(by)));
            plan.then(create(1, 7));
            plan.then(plain(CLEAR_CAP, 7, 0, 0));
            plan.then(create(1, 7));
            plan.then(create(2, 8));
            for n in 0..30u64 {
                let used = plan.plan.totals(7).1;
                let step = 16 << (n / 2).min(11);
                let max = (used + step * block).wrapping_add_signed(by);
                plan.then(set_cap(7, max));
                plan.then(set_cap(8, 0));
                plan.then(grow(1));
                plan.then(grow(2));
                plan.then(create(3, 7));
                plan.then(plain(CLEAR_CAP, 7, 0, 0));
                if by < 0 {
                    plan.then(grow(1));
                }
            }
            // a cap below what is used, and one that no sum reaches
            for max in [0, 1, MAX - 1, MAX] {
                plan.then(set_cap(7, max));
                plan.then(grow(1));
                plan.then(publish(1, 16 * block));
            }
            plan.then(drop(1));
            plan.then(set_cap(7, (2 * block).wrapping_add_signed(by)));
            plan.then(create(1, 7));
            plan.then(drop(1));
            plan.then(create(4, 7));
            check(&plan.case)?;
        }
    }
    Ok(())
}

/// Names of every length, of zeros and of others, each as often as it is held.
pub fn names(check: Check) -> Result<(), String> {
    let mut plan = Drawing::new(longest(12));
    for len in 0..28 {
        for fill in [0, 1] {
            let id = 2 * len + fill;
            plan.then(plain(CREATE, id, 0, named(fill, len)));
            plan.then(plain(CREATE, 1000, 0, named(fill, len)));
            plan.then(plain(CREATE, id, 0, named(fill, len)));
        }
    }
    plan.then(drop(0));
    plan.then(plain(CREATE, 1000, 0, named(0, 0)));
    check(&plan.case)
}

/// Each lent list one too short, just long enough, longer, and empty, on every call.
pub fn lent(check: Check) -> Result<(), String> {
    for which in 0..3 {
        for distance in [2, 0, 1, 3, 2 * 1000, 2 << 20] {
            let lent = lent_by(which, distance);
            let mut opening = longest(12);
            opening.lent = lent;
            check(&list(opening, &[create(1, 1)]))?;
            let mut plan = Drawing::new(longest(12));
            let all = [
                create(1, 1),
                grow(1),
                publish(1, 4096),
                plain(LOCATE, 1, 0, 1),
            ];
            for unknown in [false, true] {
                for told in all.into_iter().chain([drop(1)]) {
                    let mut short = told;
                    short[4] = lent;
                    if unknown {
                        short[1] = 99;
                    }
                    plan.then(short);
                    plan.then(told);
                }
            }
            plan.then([SET_CAP, 1, 5, 0, lent]);
            plan.then([CREATE, 1, 1, named(1, 25), lent]);
            check(&plan.case)?;
        }
    }
    Ok(())
}

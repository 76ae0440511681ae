//! Opens and calls at document 01's limits, one just below and one just above.

mod calls;
mod containers;
mod opens;

use super::Check;
use super::draw::Drawing;
use super::records::LONGEST;
use super::sequence::{
    CREATE, Case, DROP, GROW, LOCATE, PUBLISH, SET_CAP, Told, ToldCall, named, plain,
};
use super::side::Side;
use crate::random::Random;

const MAX: u64 = u64::MAX;

/// A region's name by its number.
fn by_number(id: u64) -> u64 {
    named(id.wrapping_add(1), 8)
}

fn create(id: u64, tag: u64) -> ToldCall {
    plain(CREATE, id, tag, by_number(id))
}

fn grow(id: u64) -> ToldCall {
    plain(GROW, id, 0, 0)
}

fn publish(id: u64, len: u64) -> ToldCall {
    plain(PUBLISH, id, len, 0)
}

fn drop(id: u64) -> ToldCall {
    plain(DROP, id, 0, 0)
}

fn set_cap(tag: u64, max: u64) -> ToldCall {
    plain(SET_CAP, tag, max, 0)
}

fn list(opening: Told, calls: &[ToldCall]) -> Case {
    let calls = calls.concat();
    Case { opening, calls }
}

/// A container that is as long as one may be.
fn longest(log2_block: u8) -> Told {
    Told::empty(log2_block, 1, LONGEST)
}

/// Locates at every join of a region's extents and at its data's end.
fn locates(plan: &mut Drawing, id: u64) {
    let found = (0..plan.plan.count()).map(|i| plan.plan.region(i));
    let Some((record, extents)) = found.into_iter().find(|r| r.0.number == id) else {
        return;
    };
    let mut at: u64 = 0;
    for len in extents.iter().map(|e| e.1).chain([0]) {
        for pos in [at, at.saturating_sub(1), at.saturating_sub(2), at + 1] {
            for n in [0, 1, 2, 3, len, len + 1] {
                plan.then(plain(LOCATE, id, pos, n));
            }
        }
        at += len;
    }
    let data = record.entry.data_size;
    for (pos, n) in [
        (data, 0),
        (data, 1),
        (0, data),
        (0, data + 1),
        (MAX, MAX),
        (1, MAX),
    ] {
        plan.then(plain(LOCATE, id, pos, n));
    }
}

pub fn compare(random: &mut Random, check: Check) -> Result<(), String> {
    containers::containers(check)?;
    calls::regions(random, check)?;
    containers::extents(check)?;
    calls::tags(random, check)?;
    calls::caps(check)?;
    containers::full(check)?;
    containers::fragments(random, check)?;
    containers::joins(check)?;
    calls::names(check)?;
    opens::last_numbers(random, check)?;
    opens::kinds(random, check)?;
    calls::lent(check)?;
    opens::extras(random, check)?;
    opens::refusals(random, check)?;
    opens::replaced(random, check)
}

//! Random opens and lists of calls.

use super::Check;
use super::call::{Range, Record};
use super::model::Model;
use super::records::{LONGEST, drawn, of_counts, one, table_end};
use super::sequence::{
    CLEAR_CAP, CREATE, Case, DROP, GROW, LOCATE, PUBLISH, SET_CAP, Told, ToldCall, call, lent_by,
    named, plain,
};
use super::side::Side;
use super::spoil::spoil;
use crate::random::Random;

/// A case in the making, and the plan as the model has it by then.
pub struct Drawing {
    pub case: Case,
    pub plan: Model,
    pub opened: bool,
}

impl Drawing {
    pub fn new(opening: Told) -> Self {
        let mut plan = Model::new(None);
        let opened = plan.open(&opening.opening()).accepted();
        let calls = Vec::new();
        Self {
            case: Case { opening, calls },
            plan,
            opened,
        }
    }

    /// One call more. After a refused open there are none.
    pub fn then(&mut self, told: ToldCall) {
        if self.opened {
            self.case.calls.extend(told);
            let (call, lent) = call(&told);
            self.plan.ask(&call, lent);
        }
    }

    pub fn region(&self, random: &mut Random) -> Option<(Record, Vec<Range>)> {
        let n = self.plan.count() as u64;
        (n > 0).then(|| self.plan.region(random.below(n) as usize))
    }
}

/// A number beside x or x itself.
pub fn beside(x: u64, random: &mut Random) -> u64 {
    x.wrapping_sub(1).wrapping_add(random.below(3))
}

fn create(plan: &Drawing, tags: u64, random: &mut Random) -> ToldCall {
    let held = plan.region(random);
    let id = match (random.below(12), &held) {
        (0, Some((record, _))) => record.number,
        (1, _) => random.number(),
        _ => random.below(80),
    };
    let tag = match (random.below(8), &held) {
        (0, Some((record, _))) => record.tag.into(),
        (1, _) => random.number() & u64::from(u32::MAX),
        _ => random.below(tags),
    };
    let len = match random.below(16) {
        0 => 0,
        1 => 24,
        2 if random.below(4) == 0 => 25 + random.below(3),
        _ => 1 + random.below(23),
    };
    plain(CREATE, id, tag, named(random.below(40), len))
}

fn publish(record: &Record, random: &mut Random) -> ToldCall {
    let capacity = record.entry.capacity;
    let unit = 1u64 << record.header.log2_block;
    let units = capacity / unit;
    let len = match random.below(10) {
        0 | 1 => units * unit,
        2 => (units + 1) * unit,
        3 => beside(capacity, random),
        4 => record.entry.data_size,
        5 => random.below(units + 1) * unit + one(&[1, 512, 1024], random),
        6 => random.number(),
        _ => random.below(units + 1) * unit,
    };
    plain(PUBLISH, record.number, len, 0)
}

/// At, below or above what would be used after a create or a grow.
fn cap(plan: &Drawing, record: &Record, random: &mut Random) -> ToldCall {
    let tag = match random.below(8) {
        0 => random.below(6) as u32,
        _ => record.tag,
    };
    let block = plan.case.opening.limits.block();
    let used = plan.plan.totals(tag).1;
    let step = 16 << (record.entry.extent_count / 2).min(11);
    let max = match random.below(8) {
        0 => random.number(),
        1 => beside(used, random),
        2 | 3 => beside(used + 2 * block, random),
        _ => beside(used + step * block, random),
    };
    match random.below(6) {
        0 => plain(CLEAR_CAP, tag.into(), 0, 0),
        _ => plain(SET_CAP, tag.into(), max, 0),
    }
}

/// At the starts and ends of extents and of the data, and across them.
pub fn locate(record: &Record, extents: &[Range], random: &mut Random) -> ToldCall {
    let data = record.entry.data_size;
    let mut ends = vec![0];
    for extent in extents {
        ends.push(ends[ends.len() - 1] + extent.1);
    }
    let pos = match random.below(8) {
        0 => random.number(),
        1 => data,
        2 => beside(data, random),
        3 | 4 => random.below(data.saturating_add(1)),
        5 => one(&ends, random).min(data),
        _ => beside(one(&ends, random), random),
    };
    let end = ends.iter().find(|end| **end > pos).copied();
    let to = match random.below(4) {
        0 => data,
        1 => one(&ends, random),
        _ => end.unwrap_or(data),
    };
    let n = match random.below(8) {
        0..3 => random.below(3),
        3 => random.number(),
        4 => beside(to.wrapping_sub(pos), random),
        _ => to.saturating_sub(pos),
    };
    plain(LOCATE, record.number, pos, n)
}

/// Any call, mostly about a region that is there.
fn any_call(plan: &Drawing, tags: u64, random: &mut Random) -> ToldCall {
    let mut told = match (plan.region(random), random.below(24)) {
        (None, 0..20) | (_, 0..4) => create(plan, tags, random),
        (Some((record, _)), 4..10) => plain(GROW, record.number, 0, 0),
        (Some((record, _)), 10..13) => publish(&record, random),
        (Some((record, _)), 13) => plain(DROP, record.number, 0, 0),
        (Some((record, _)), 14..16) => cap(plan, &record, random),
        (Some((record, extents)), 16..22) => locate(&record, &extents, random),
        _ => {
            let call = one(&[GROW, PUBLISH, DROP, LOCATE, SET_CAP], random);
            plain(call, random.number(), random.number(), random.number())
        }
    };
    if random.below(48) == 0 {
        told[4] = lent_by(random.below(3), random.below(5));
    }
    told
}

/// This open, then so many calls.
pub fn calls(opening: Told, n: usize, random: &mut Random) -> Case {
    let mut plan = Drawing::new(opening);
    let tags = one(&[1, 5, 5, 120], random);
    for _ in 0..n {
        let told = any_call(&plan, tags, random);
        plan.then(told);
    }
    plan.case
}

/// A container without records: room for some blocks, or any length.
pub fn empty(random: &mut Random) -> Told {
    let log2_block = 12 + random.below(5) as u8;
    let block = 1 << log2_block;
    let table_end = table_end(block, random);
    let room = match random.below(10) {
        0 => random.below(3 * block),
        1 => LONGEST - table_end,
        2 => random.below(LONGEST - table_end),
        3 | 4 => random.below(40) * block,
        5 => random.below(3000) * block,
        _ => random.below(300) * block + random.below(block),
    };
    Told::empty(log2_block, table_end, table_end + room)
}

/// Records of which some are spoiled in up to three ways.
fn spoiled(random: &mut Random) -> Told {
    let n = one(&[0, 1, 1, 2, 2, 3, 5], random);
    let mut told = drawn(n, 6, random);
    for _ in 0..1 + random.below(3) {
        spoil(&mut told, 1 + random.below(15), random);
    }
    told
}

pub fn compare(random: &mut Random, check: Check) -> Result<(), String> {
    for _ in 0..12_000 {
        check(&calls(empty(random), 30, random))?;
    }
    for _ in 0..12_000 {
        let n = 1 + random.below(6) as usize;
        check(&calls(drawn(n, 8, random), 24, random))?;
    }
    for _ in 0..60_000 {
        check(&calls(spoiled(random), 4, random))?;
    }
    for i in 0..120 {
        // full tables, or one record or one extent too many
        let n = [64, 64, 64, 63, 65][i % 5];
        let most = [60, 60, 4, 61, 20][i / 5 % 5];
        check(&calls(drawn(n, most, random), 12, random))?;
        let counts = vec![60 - i % 2; 1 + i % 64];
        check(&calls(of_counts(&counts, 12, random), 12, random))?;
    }
    // among many ranges
    for _ in 0..300 {
        let n = 20 + random.below(40) as usize;
        check(&calls(drawn(n, 4, random), 60, random))?;
    }
    // long lists, so that containers fill up and fall to pieces
    for _ in 0..150 {
        check(&calls(empty(random), 400, random))?;
    }
    Ok(())
}

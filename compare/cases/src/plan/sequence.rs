//! An open and a list of calls in numbers, run on two sides, and made as small as it can.

use super::call::{Answer, Call, Entry, Header, Limits, Name, Opening, Places, Record};
use super::side::{Pair, Side, View};
use crate::shrink::{deadline, places, shrink_until};
use std::collections::BTreeSet;
use std::time::Instant;

/// What open is given, told by records that have their headers' extents with them.
#[derive(Clone, Debug, PartialEq)]
pub struct Told {
    pub limits: Limits,
    pub records: Vec<(Record, Vec<u64>)>,
    /// How far the list's length is from what the records have together.
    pub list: u64,
    /// How far scratch is from what is needed.
    pub scratch: u64,
    /// Which lent list is how far from what is needed.
    pub lent: u64,
}

/// A lent list's distance from what is needed: which of the three, and its distance.
fn lent(told: u64) -> Places {
    let mut lent = Places::ALL;
    let list = match told % 3 {
        0 => &mut lent.extents,
        1 => &mut lent.starts,
        _ => &mut lent.files,
    };
    *list = places(told / 3, *list);
    lent
}

/// The list with this number has this distance from what is needed.
pub fn lent_by(list: u64, distance: u64) -> u64 {
    3 * distance + list % 3
}

impl Told {
    pub fn empty(log2_block: u8, table_end: u64, file_len: u64) -> Self {
        Self {
            limits: Limits {
                log2_block,
                table_end,
                file_len,
            },
            records: Vec::new(),
            list: 0,
            scratch: 0,
            lent: 0,
        }
    }

    pub fn opening(&self) -> Opening {
        let records: Vec<Record> = self.records.iter().map(|r| r.0).collect();
        let lists = self.records.iter().map(|r| &r.1[..]);
        let mut extents = lists.collect::<Vec<_>>().concat();
        extents.resize(places(self.list, extents.len()), 4096);
        let counts = records
            .iter()
            .map(|r| usize::from(r.entry.extent_count) + 2);
        Opening {
            limits: self.limits,
            extents,
            scratch: places(self.scratch, 16 * counts.sum::<usize>()),
            lent: lent(self.lent),
            records,
        }
    }

    fn numbers(&self) -> Vec<u64> {
        let Limits {
            log2_block,
            table_end,
            file_len,
        } = self.limits;
        let log2_block = log2_block.into();
        vec![
            log2_block,
            table_end,
            file_len,
            self.list,
            self.scratch,
            self.lent,
        ]
    }

    fn set_numbers(&mut self, n: &[u64]) {
        self.limits = Limits {
            log2_block: n[0] as u8,
            table_end: n[1],
            file_len: n[2],
        };
        (self.list, self.scratch, self.lent) = (n[3], n[4], n[5]);
    }
}

/// A record's numbers, but for its name. The header's are told by what makes them of the entry's.
fn numbers(r: &Record) -> Vec<u64> {
    let (e, h) = (&r.entry, &r.header);
    vec![
        r.number,
        r.tag.into(),
        (e.kind - 1).into(),
        e.flags.into(),
        e.extent_count.into(),
        e.header_a,
        e.header_b,
        e.span_start,
        e.span_end,
        e.data_size,
        e.capacity,
        e.footprint_seq,
        h.region_id ^ r.number,
        ((h.kind + 3 - e.kind) % 3).into(),
        (h.flags ^ e.flags).into(),
        (!h.ready).into(),
        h.log2_block.into(),
        h.extent_count.into(),
    ]
}

fn record(name: Name, n: &[u64]) -> Record {
    let kind = (n[2] % 3) as u8;
    let entry = Entry {
        kind: 1 + kind,
        flags: n[3] as u8,
        extent_count: n[4] as u16,
        header_a: n[5],
        header_b: n[6],
        span_start: n[7],
        span_end: n[8],
        data_size: n[9],
        capacity: n[10],
        footprint_seq: n[11],
    };
    Record {
        number: n[0],
        tag: n[1] as u32,
        name,
        entry,
        header: Header {
            region_id: n[12] ^ n[0],
            kind: 1 + (kind + n[13] as u8 % 3) % 3,
            flags: n[14] as u8 ^ entry.flags,
            ready: n[15] == 0,
            log2_block: n[16] as u8,
            extent_count: n[17] as u16,
        },
    }
}

/// A call in numbers: which one, up to three arguments, and which lent list is how far from what is
/// needed.
pub type ToldCall = [u64; WIDTH];

const WIDTH: usize = 5;

pub const CREATE: u64 = 0;
pub const GROW: u64 = 1;
pub const PUBLISH: u64 = 2;
pub const DROP: u64 = 3;
pub const SET_CAP: u64 = 4;
pub const CLEAR_CAP: u64 = 5;
pub const LOCATE: u64 = 6;

/// With all places lent.
pub fn plain(call: u64, a: u64, b: u64, c: u64) -> ToldCall {
    [call, a, b, c, 0]
}

/// How many names there are of one filling.
pub const LENGTHS: u64 = 28;

/// The name that a number stands for: which length, and what fills it.
pub fn name(told: u64) -> Vec<u8> {
    let len = match told % LENGTHS {
        26 => 40,
        // as a u8 it would be 24
        27 => 280,
        len => len,
    };
    let fill = told / LENGTHS;
    (0..len).map(|j| (fill >> (8 * (j % 8))) as u8).collect()
}

/// The name of this length.
pub fn named(fill: u64, len: u64) -> u64 {
    LENGTHS.wrapping_mul(fill).wrapping_add(len)
}

pub fn call(told: &[u64]) -> (Call, Places) {
    let (id, b, c) = (told[1], told[2], told[3]);
    let call = match told[0] {
        CREATE => Call::Create {
            id,
            tag: b as u32,
            name: name(c),
        },
        GROW => Call::Grow { id },
        PUBLISH => Call::Publish { id, len: b },
        DROP => Call::Drop { id },
        SET_CAP => Call::Cap {
            tag: id as u32,
            max: Some(b),
        },
        CLEAR_CAP => Call::Cap {
            tag: id as u32,
            max: None,
        },
        _ => Call::Locate { id, pos: b, n: c },
    };
    let mut lent = lent(told[4]);
    if matches!(call, Call::Locate { .. }) {
        // it is lent no extents
        lent.extents = Places::ALL.extents;
    }
    (call, lent)
}

/// Something asked, what was seen before, the answer, and what is seen afterwards.
pub struct Step<'a> {
    pub opening: &'a Opening,
    /// None is the open.
    pub call: Option<&'a Call>,
    pub before: &'a View,
    pub answer: Answer,
    pub after: &'a View,
}

/// What one side has otherwise than is due, after so many calls.
#[derive(Debug)]
pub struct Difference {
    pub calls: usize,
    pub texts: [String; 2],
}

fn answered(calls: usize, answers: [Answer; 2]) -> Result<(), Difference> {
    if answers[0] == answers[1] {
        return Ok(());
    }
    let texts = answers.map(|answer| format!("{answer:?}"));
    Err(Difference { calls, texts })
}

/// A side wrote what it must not.
fn kept(calls: usize, side: &mut dyn Side) -> Result<(), Difference> {
    match side.trespass() {
        Some(text) => Err(Difference {
            calls,
            texts: [String::from("its lists"), text],
        }),
        None => Ok(()),
    }
}

fn seen(calls: usize, views: [&View; 2]) -> Result<(), Difference> {
    match views[0].differs(views[1]) {
        Some(texts) => Err(Difference { calls, texts }),
        None => Ok(()),
    }
}

#[derive(Clone, Debug, PartialEq)]
pub struct Case {
    pub opening: Told,
    /// The calls' numbers, one after another.
    pub calls: Vec<u64>,
}

impl Case {
    /// Asks both sides for everything in turn and looks at all of both after it, up to the first
    /// difference. Each step goes to `step`.
    pub fn run(&self, pair: Pair, mut step: impl FnMut(&Step)) -> Result<(), Difference> {
        let (mut due, mut other) = (pair.due.1(), pair.other.1());
        let opening = self.opening.opening();
        let mut tags: BTreeSet<u32> = opening.records.iter().map(|r| r.tag).collect();
        let answer = due.open(&opening);
        answered(0, [answer, other.open(&opening)])?;
        kept(0, &mut *other)?;
        let mut before = View::default();
        if answer.accepted() {
            before = due.view(&tags);
            seen(0, [&before, &other.view(&tags)])?;
        }
        step(&Step {
            opening: &opening,
            call: None,
            before: &View::default(),
            answer,
            after: &before,
        });
        if !answer.accepted() {
            return Ok(());
        }
        for (k, (call, lent)) in self.calls().into_iter().enumerate() {
            if let Call::Create { tag, .. } | Call::Cap { tag, .. } = call
                && tags.insert(tag)
            {
                before = due.view(&tags);
            }
            let answer = due.ask(&call, lent);
            answered(k + 1, [answer, other.ask(&call, lent)])?;
            kept(k + 1, &mut *other)?;
            let after = due.view(&tags);
            seen(k + 1, [&after, &other.view(&tags)])?;
            if !answer.accepted() {
                seen(k + 1, [&before, &after])?;
            }
            step(&Step {
                opening: &opening,
                call: Some(&call),
                before: &before,
                answer,
                after: &after,
            });
            before = after;
        }
        Ok(())
    }

    pub fn calls(&self) -> Vec<(Call, Places)> {
        self.calls.chunks_exact(WIDTH).map(call).collect()
    }

    pub fn differs(&self, pair: Pair) -> bool {
        self.run(pair, |_| ()).is_err()
    }

    /// Whether this is a smaller case that still shows a difference; it is then taken.
    fn take(&mut self, pair: Pair, end: Instant, change: impl FnOnce(&mut Self)) -> bool {
        let mut smaller = self.clone();
        change(&mut smaller);
        let taken = smaller != *self && Instant::now() < end && smaller.differs(pair);
        if taken {
            *self = smaller;
        }
        taken
    }

    /// Fewer records, each with fewer extents and lower numbers.
    fn fewer_records(&mut self, pair: Pair, end: Instant) {
        for i in (0..self.opening.records.len()).rev() {
            if self.take(pair, end, |case| drop(case.opening.records.remove(i))) {
                continue;
            }
            for k in (0..self.opening.records[i].1.len() / 2).rev() {
                self.take(pair, end, |case| {
                    let (r, extents) = &mut case.opening.records[i];
                    let len = extents[2 * k + 1];
                    extents.drain(2 * k..2 * k + 2);
                    if k < usize::from(r.entry.extent_count) {
                        r.entry.extent_count -= 1;
                        r.entry.capacity = r.entry.capacity.wrapping_sub(len);
                        r.entry.data_size = r.entry.data_size.min(r.entry.capacity);
                    }
                    r.header.extent_count = r.header.extent_count.saturating_sub(1);
                });
            }
            let name = self.opening.records[i].0.name;
            let lower = shrink_until(end, numbers(&self.opening.records[i].0), 0, |n| {
                let mut changed = self.clone();
                changed.opening.records[i].0 = record(name, n);
                changed.differs(pair)
            });
            self.opening.records[i].0 = record(name, &lower);
        }
    }

    /// The smallest case on which the two sides still differ, or as small a one as is found in time.
    pub fn smallest(&self, pair: Pair) -> Self {
        let end = deadline();
        let mut small = self.clone();
        loop {
            let before = small.clone();
            let calls = shrink_until(end, small.calls.clone(), WIDTH, |calls| {
                let mut changed = small.clone();
                changed.calls = calls.to_vec();
                changed.differs(pair)
            });
            small.calls = calls;
            small.fewer_records(pair, end);
            let numbers = shrink_until(end, small.opening.numbers(), 0, |n| {
                let mut changed = small.clone();
                changed.opening.set_numbers(n);
                changed.differs(pair)
            });
            small.opening.set_numbers(&numbers);
            if small == before || Instant::now() > end {
                return small;
            }
        }
    }
}

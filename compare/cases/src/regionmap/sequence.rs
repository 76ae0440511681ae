//! Sequences of calls on one map, told in numbers that hang on what the map is by then.

use super::sides::{Call, Difference, MOST, Sides};
use crate::random::Random;
use crate::shrink::{apart, at_distance, deadline, distance, shrink_until, together};

const MAX: u64 = u64::MAX;

/// A call in numbers: which one; two for its first argument and two for its second, where it is
/// counted from and how far it is from there; how far each list's places are from those it needs.
pub type Told = [u64; WIDTH];

const WIDTH: usize = 7;

pub const FROM_EXTENTS: u64 = 0;
pub const WITH_ROOM: u64 = 1;
pub const PUBLISH_LEN: u64 = 2;
pub const EXTEND: u64 = 3;
pub const LOCATE: u64 = 4;
pub const EXTENTS: u64 = 5;
pub const LOCATE_AMONG: u64 = 6;

/// A call with its arguments, in lists just long enough. `from_extents` is given all the extents, and
/// its length second.
pub fn plain(call: u64, first: u64, second: u64) -> Told {
    [call, 0, distance(first, 0), 0, distance(second, 0), 0, 0]
}

#[derive(Clone, PartialEq)]
pub struct Sequence {
    /// How many places the lists have, and what fills them.
    lists: Vec<u64>,
    /// What `from_extents` is given; each offset is told by its distance from the end before it.
    extents: Vec<u64>,
    /// The calls' numbers, one after another.
    calls: Vec<u64>,
}

impl Sequence {
    pub fn new(places: usize, filling: u64, extents: &[(u64, u64)], calls: &[Told]) -> Self {
        Self {
            lists: vec![places as u64, filling],
            extents: apart(extents),
            calls: calls.concat(),
        }
    }

    /// Further calls.
    pub fn then(&mut self, calls: &[Told]) {
        self.calls.extend(calls.concat());
    }

    /// Lets `ask` have each call in turn, with the places of its lists, up to its first error.
    pub fn walk<E>(
        &self,
        sides: &mut Sides,
        mut ask: impl FnMut(&mut Sides, &Call, [usize; 2]) -> Result<(), E>,
    ) -> Result<(), E> {
        for told in self.calls.chunks_exact(WIDTH) {
            let call = self.call(told, sides);
            let need = match &call {
                Call::FromExtents { extents, .. } => extents.len() / 2,
                Call::WithRoom { asked } => *asked,
                _ => sides.due.room,
            };
            let most = sides.due_lists[0].len() as u64;
            let places = |d: u64| at_distance(d, need as u64).min(most) as usize;
            ask(sides, &call, [places(told[5]), places(told[6])])?;
        }
        Ok(())
    }

    /// Asks both sides for each call in turn, up to the first on which they differ. Each call goes to
    /// `seen`, with the places of its lists and its refusal.
    pub fn run(&self, mut seen: impl FnMut(&Call, [usize; 2], u64)) -> Result<(), Difference> {
        let random = &mut Random::new(self.lists[1]);
        let places = self.lists[0].min(2 * MOST as u64);
        let mut sides = Sides::new([0, 1].map(|_| (0..places).map(|_| random.sized()).collect()));
        self.walk(&mut sides, |sides, call, places| {
            let answered = sides.ask(call, places);
            seen(call, places, *answered.as_ref().unwrap_or(&0));
            answered.map(|_| ())
        })?;
        sides.rest()
    }

    /// The call that is told, on the map as it is.
    fn call(&self, told: &[u64], sides: &Sides) -> Call {
        let map = &sides.due;
        let (from, by) = (told[1], told[2]);
        let rest = (told[3], told[4]);
        match told[0] {
            FROM_EXTENTS => {
                let mut extents = together(&self.extents);
                extents.truncate(extents.len().saturating_sub(from as usize));
                let len = length_of(&extents, rest);
                Call::FromExtents { extents, len }
            }
            WITH_ROOM => {
                let base = [0, map.room, map.count, MOST][from.min(3) as usize];
                let asked = at_distance(by, base as u64) as usize;
                Call::WithRoom { asked }
            }
            PUBLISH_LEN => {
                let len = position((from, by), sides);
                Call::PublishLen { len }
            }
            EXTEND => {
                let file = extension((from, by), sides);
                let base = [0, MAX - file, MAX - map.capacity][rest.0.min(2) as usize];
                let n = at_distance(rest.1, base);
                Call::Extend { file, n }
            }
            LOCATE | LOCATE_AMONG => {
                let pos = position((from, by), sides);
                let end = sides.run(sides.run_of(pos)).2;
                let base = [pos, end, map.data][rest.0.min(2) as usize];
                let n = at_distance(rest.1, base.wrapping_sub(pos));
                if told[0] == LOCATE {
                    Call::Locate { pos, n }
                } else {
                    Call::LocateAmong { pos, n }
                }
            }
            _ => {
                let out = at_distance(by, 2 * (map.count as u64 + 1));
                let out = out.min(4 * MOST as u64) as usize;
                Call::Extents { out }
            }
        }
    }

    fn part(&mut self, k: usize) -> &mut Vec<u64> {
        match k {
            0 => &mut self.calls,
            1 => &mut self.extents,
            _ => &mut self.lists,
        }
    }

    /// The smallest sequence on which the two sides still differ, or as small a one as is found in
    /// time.
    pub fn smallest(&self) -> Self {
        let end = deadline();
        let mut small = self.clone();
        loop {
            let before = small.clone();
            for (k, unit) in [(0, WIDTH), (1, 2), (2, 0)] {
                let differs = |part: &[u64]| {
                    let mut changed = small.clone();
                    *changed.part(k) = part.to_vec();
                    changed.run(|_, _, _| ()).is_err()
                };
                let part = small.clone().part(k).clone();
                *small.part(k) = shrink_until(end, part, unit, differs);
            }
            if small == before {
                return small;
            }
        }
    }
}

/// A length for `from_extents`: counted from 0, from the sum of the extents, or one up to that sum.
fn length_of(extents: &[u64], (from, by): (u64, u64)) -> u64 {
    let lens = extents.iter().skip(1).step_by(2);
    let sum = lens.fold(0u64, |s, len| s.wrapping_add(*len));
    match from {
        0 => at_distance(by, 0),
        1 => at_distance(by, sum),
        _ => by % sum.saturating_add(1),
    }
}

/// A position: counted from 0, from the data's end or the capacity's, one up to the capacity, or
/// counted from a run's start.
fn position((from, by): (u64, u64), sides: &Sides) -> u64 {
    let map = &sides.due;
    match from {
        0 => at_distance(by, 0),
        1 => at_distance(by, map.data),
        2 => at_distance(by, map.capacity),
        3 => by % map.capacity.saturating_add(1),
        k => at_distance(by, sides.run(k as usize - 4).0),
    }
}

/// A file offset for `extend`: counted from 0, from the last run's end, from 2^64 - 1, or from the
/// end of some run.
fn extension((from, by): (u64, u64), sides: &Sides) -> u64 {
    let end_of = |k: usize| {
        let (start, file, end) = sides.run(k);
        file + (end - start)
    };
    let base = match from {
        0 => 0,
        1 => end_of(sides.due.count),
        2 => MAX,
        k => end_of(k as usize - 3),
    };
    at_distance(by, base)
}

//! Maps that no call handed back: every call ends, and changes no slot but those that it may.

use crate::lent::Lent;
use crate::random::Random;
use ours::map::Map;
use std::ops::Range;

/// Any map and lists, and what the calls are given.
#[derive(Debug)]
struct Foreign {
    map: Map,
    lists: [Vec<u64>; 2],
    a: u64,
    b: u64,
    given: Vec<u64>,
}

fn list(random: &mut Random) -> Vec<u64> {
    let mut list: Vec<u64> = (0..random.below(12)).map(|_| random.number()).collect();
    if random.below(2) == 0 {
        list.sort_unstable();
    }
    list
}

/// Whether a lent list has changed at most in the slots of `free`.
fn kept(lent: Lent, before: &[u64], free: &Range<u64>) -> bool {
    let list = lent.back();
    let mut slots = (0..).zip(list.iter().zip(before));
    list.len() == before.len() && slots.all(|(i, (x, y))| x == y || free.contains(&i))
}

impl Foreign {
    fn drawn(random: &mut Random) -> Self {
        Self {
            map: Map {
                first: random.number(),
                data: random.number(),
                capacity: random.number(),
                count: random.number() as usize,
                room: random.number() as usize,
            },
            lists: [list(random), list(random)],
            a: random.number(),
            b: random.number(),
            given: list(random),
        }
    }

    /// Whether a call changes the lists that it is lent at most in the slots of `free`.
    fn keeps(&self, free: Range<u64>, call: impl FnOnce(&mut Map, [&mut [u64]; 2])) -> bool {
        let mut lent = self.lists.each_ref().map(|l| Lent::new(l));
        call(&mut self.map.clone(), lent.each_mut().map(Lent::list));
        let mut both = lent.into_iter().zip(&self.lists);
        both.all(|(lent, before)| kept(lent, before, &free))
    }

    /// Makes each call, and says of each whether it changes only what it may.
    fn calls(&self) -> [(&'static str, bool); 9] {
        let (a, b, given) = (self.a, self.b, &self.given);
        let count = self.map.count as u64;
        let after = |n: u64| count..count.saturating_add(n);
        let pairs = given.len() as u64 / 2;
        let positions = &self.lists[0];
        let (mut out, mut ats) = (Lent::new(given), Lent::new(given));
        let mut runs = 0;
        [
            (
                "from_extents",
                self.keeps(0..pairs, |map, [starts, files]| {
                    ours::map::from_extents(given, a, starts, files, map);
                }),
            ),
            (
                "publish_len",
                self.keeps(0..0, |map, _| {
                    ours::map::publish_len(a, map);
                }),
            ),
            (
                "publish_each",
                self.keeps(0..0, |map, _| {
                    ours::map::publish_each(given, map);
                }),
            ),
            (
                "with_room",
                self.keeps(0..0, |map, [starts, files]| {
                    ours::map::with_room(a as usize, starts, files, map);
                }),
            ),
            (
                "extend",
                self.keeps(after(1), |map, [starts, files]| {
                    ours::map::extend(a, b, starts, files, map);
                }),
            ),
            (
                "extend_each",
                self.keeps(after(pairs), |map, [starts, files]| {
                    ours::map::extend_each(given, starts, files, map);
                }),
            ),
            (
                "locate",
                self.keeps(0..0, |map, [starts, files]| {
                    ours::map::locate(map, starts, files, a, b);
                }),
            ),
            (
                "locate_each",
                self.keeps(0..0, |map, [starts, files]| {
                    ours::map::locate_each(map, starts, files, positions, a, ats.list());
                }) && kept(ats, given, &(0..positions.len() as u64)),
            ),
            (
                "runs",
                self.keeps(0..0, |map, [starts, files]| {
                    runs = ours::map::runs(map, starts, files, out.list()).1;
                }) && runs <= pairs
                    && kept(out, given, &(0..2 * runs)),
            ),
        ]
    }
}

/// How many calls were made, or one that changes what it may not.
pub fn compare(random: &mut Random) -> Result<usize, String> {
    let mut calls = 0;
    for _ in 0..300_000 {
        let foreign = Foreign::drawn(random);
        for (name, kept) in foreign.calls() {
            calls += 1;
            if !kept {
                return Err(format!("{name} of {foreign:?} changes what it may not"));
            }
        }
    }
    Ok(calls)
}

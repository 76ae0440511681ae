//! Sequences of calls told in numbers that hang on what the accounts are by then.

use super::call::{Call, resized};
use super::sides::{Answer, Difference, Probe, Sides};
use crate::shrink::{at_distance, deadline, distance, shrink_until};
use ours::accounts::{Accounts, Row};
use std::collections::BTreeSet;

const MAX: u64 = u64::MAX;

/// A call in numbers: which one; its tag; two for its first amount and two for its second, where it is
/// counted from and how far it is from there; what is read afterwards. For the calls that are given
/// lists: how many usages are left out; how far the second and the third list's lengths are from the
/// first's; and two for the block.
pub type Told = [u64; WIDTH];

const WIDTH: usize = 7;

pub const EMPTY: u64 = 0;
pub const FROM_USAGE: u64 = 1;
pub const FROM_ENTRIES: u64 = 2;
pub const ADD_USAGE: u64 = 3;
pub const REMOVE_USAGE: u64 = 4;
pub const ADD: u64 = 5;
pub const REMOVE: u64 = 6;
pub const FITS: u64 = 7;
pub const RESERVE: u64 = 8;
pub const UNRESERVE: u64 = 9;
pub const SET_CAP: u64 = 10;
pub const CLEAR_CAP: u64 = 11;

/// How many places an amount can be counted from.
pub const BASES: u64 = 14;

/// A call with its tag and amounts.
pub fn plain(call: u64, tag: u32, first: u64, second: u64) -> Told {
    let near = |x: u64| distance(x, 0);
    [
        call,
        u64::from(tag),
        0,
        near(first),
        0,
        near(second),
        u64::from(tag),
    ]
}

/// A usage that a list is made of: its tag, its data bytes, and what it occupies or its state.
pub type Usage = [u64; 3];

#[derive(Clone, PartialEq)]
pub struct Sequence {
    /// What the calls with lists are given.
    usages: Vec<u64>,
    /// The calls' numbers, one after another.
    calls: Vec<u64>,
}

/// An amount: counted from 0, from 2^64 - 1, from what is left under the cap, from what a number of the
/// row is or is short of 2^64 - 1, or from the block that brings the data size before it there.
fn amount((from, by): (u64, u64), row: &Row, accounts: &Accounts, before: u64) -> u64 {
    let held = row.physical.saturating_add(row.reserved);
    let cap = if row.capped { row.cap } else { MAX };
    let base = match from % BASES {
        0 => 0,
        1 => MAX,
        2 => cap.wrapping_sub(held),
        3 => MAX - held,
        4 => held,
        5 => row.logical,
        6 => MAX - row.logical,
        7 => row.physical,
        8 => MAX - row.physical,
        9 => row.reserved,
        10 => accounts.reserved,
        11 => MAX - accounts.reserved,
        12 => (MAX - before) / 2,
        _ => 1 << 63,
    };
    at_distance(by, base)
}

impl Sequence {
    pub fn new(usages: &[Usage], calls: &[Told]) -> Self {
        Self {
            usages: usages.concat(),
            calls: calls.concat(),
        }
    }

    /// Asks for each call in turn, up to the first on which two sides differ. Each call goes to `seen`,
    /// with the accounts before it and its answer.
    pub fn run(&self, mut seen: impl FnMut(&Call, &Accounts, &Answer)) -> Result<(), Difference> {
        let mut sides = Sides::new();
        self.walk(&mut sides, |sides, call, probe| {
            let before = sides.due;
            let answer = sides.ask(call, probe)?;
            seen(call, &before, &answer);
            Ok(())
        })
    }

    /// Lets `ask` have each call in turn, with what is read after it, up to its first error.
    pub fn walk<E>(
        &self,
        sides: &mut Sides,
        mut ask: impl FnMut(&mut Sides, &Call, Probe) -> Result<(), E>,
    ) -> Result<(), E> {
        for told in self.calls.chunks_exact(WIDTH) {
            let call = self.call(told, &sides.due);
            let probe = Probe {
                tags: [call.tag().unwrap_or(0), told[6] as u32],
                place: told[6] as usize,
            };
            ask(sides, &call, probe)?;
        }
        Ok(())
    }

    /// The calls as they are on the way.
    pub fn calls(&self) -> Vec<(Call, Probe)> {
        let mut calls = Vec::new();
        let tried = self.walk(&mut Sides::new(), |sides, call, probe| {
            calls.push((call.clone(), probe));
            sides.ask(call, probe).map(|_| ())
        });
        drop(tried);
        calls
    }

    /// The call that is told, on the accounts as they are.
    fn call(&self, told: &[u64], accounts: &Accounts) -> Call {
        let tag = told[1] as u32;
        let rows = &accounts.rows[..accounts.count];
        let row = rows.iter().find(|r| r.tag == tag);
        let row = *row.unwrap_or(&Row::default());
        let first = amount((told[2], told[3]), &row, accounts, 0);
        let second = amount((told[4], told[5]), &row, accounts, first);
        match told[0] {
            EMPTY => Call::Empty,
            FROM_USAGE | FROM_ENTRIES => self.from_lists(told, second),
            ADD_USAGE => Call::AddUsage {
                tag,
                logical: first,
                physical: second,
            },
            REMOVE_USAGE => Call::RemoveUsage {
                tag,
                logical: first,
                physical: second,
            },
            ADD => Call::Add {
                tag,
                data_size: first,
                block: second,
            },
            REMOVE => Call::Remove {
                tag,
                data_size: first,
                block: second,
            },
            FITS => Call::Fits { tag, extra: first },
            RESERVE => Call::Reserve { tag, bytes: first },
            UNRESERVE => Call::Unreserve { tag, bytes: first },
            SET_CAP => Call::SetCap {
                tag,
                cap: Some(first),
            },
            _ => Call::SetCap { tag, cap: None },
        }
    }

    fn from_lists(&self, told: &[u64], block: u64) -> Call {
        let usages: Vec<&[u64]> = self.usages.chunks_exact(3).collect();
        let fewer = (told[1] as usize).min(usages.len());
        let usages = &usages[..usages.len() - fewer];
        let tags = usages.iter().map(|u| u[0] as u32).collect();
        let amounts: Vec<u64> = usages.iter().map(|u| u[1]).collect();
        if told[0] == FROM_USAGE {
            let physical = usages.iter().map(|u| u[2]).collect();
            return Call::FromUsage {
                tags,
                logical: resized(amounts, told[2]),
                physical: resized(physical, told[3]),
            };
        }
        let states = usages.iter().map(|u| u[2] as u8).collect();
        Call::FromEntries {
            states: resized(states, told[3]),
            tags,
            data_sizes: resized(amounts, told[2]),
            block,
        }
    }

    /// The same with the least tags that are in the same order.
    fn renumbered(&self) -> Self {
        let mut small = self.clone();
        let calls = small.calls.chunks_exact_mut(WIDTH);
        let of_calls = calls
            .filter(|told| told[0] >= ADD_USAGE)
            .map(|told| &mut told[1]);
        let of_lists = small.usages.chunks_exact_mut(3).map(|usage| &mut usage[0]);
        let tags: Vec<&mut u64> = of_calls.chain(of_lists).collect();
        let order: BTreeSet<u64> = tags.iter().map(|tag| **tag).collect();
        for tag in tags {
            *tag = order.range(..*tag).count() as u64;
        }
        small
    }

    fn part(&mut self, k: usize) -> &mut Vec<u64> {
        match k {
            0 => &mut self.calls,
            _ => &mut self.usages,
        }
    }

    /// The smallest sequence on which two sides still differ, or as small a one as is found in time.
    pub fn smallest(&self) -> Self {
        let end = deadline();
        let mut small = self.clone();
        loop {
            let before = small.clone();
            for (k, unit) in [(0, WIDTH), (1, 3)] {
                let differs = |part: &[u64]| {
                    let mut changed = small.clone();
                    *changed.part(k) = part.to_vec();
                    changed.run(|_, _, _| ()).is_err()
                };
                let part = small.clone().part(k).clone();
                *small.part(k) = shrink_until(end, part, unit, differs);
            }
            let renumbered = small.renumbered();
            if renumbered.run(|_, _, _| ()).is_err() {
                small = renumbered;
            }
            if small == before {
                return small;
            }
        }
    }
}

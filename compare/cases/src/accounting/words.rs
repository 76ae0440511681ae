//! The accounts by document 01's words, in whole numbers.

use super::call::{Call, READY};
use ours::accounts::{Accounts, MOST, Row};
use std::collections::BTreeMap;

const MAX: u128 = u64::MAX as u128;

#[derive(Clone, Copy, Default)]
struct Usage {
    logical: u128,
    physical: u128,
    reserved: u128,
    cap: Option<u64>,
}

/// One account for each tag, and the bytes reserved for all.
#[derive(Clone, Default)]
pub struct Words {
    tags: BTreeMap<u32, Usage>,
    reserved: u128,
}

/// "Sums stop at 0 and 2^64 - 1."
fn plus(a: u128, b: u64) -> u128 {
    (a + u128::from(b)).min(MAX)
}

fn minus(a: u128, b: u64) -> u128 {
    a - a.min(u128::from(b))
}

/// "Two blocks and the data size, none past 2^64 - 1."
pub fn extent_len(data_size: u64, block: u64) -> Option<u64> {
    u64::try_from(2 * u128::from(block) + u128::from(data_size)).ok()
}

impl Words {
    /// Does a call that is not refused; answers whether the bytes fit.
    pub fn call(&mut self, call: &Call) -> bool {
        match *call {
            Call::Empty => *self = Self::default(),
            Call::FromUsage {
                ref tags,
                ref logical,
                ref physical,
            } => {
                *self = Self::default();
                for (i, &tag) in tags.iter().enumerate() {
                    self.add_usage(tag, logical[i], physical[i]);
                }
            }
            Call::FromEntries {
                ref states,
                ref tags,
                ref data_sizes,
                block,
            } => {
                *self = Self::default();
                for (i, &tag) in tags.iter().enumerate() {
                    if states[i] == READY {
                        self.add(tag, data_sizes[i], block);
                    }
                }
            }
            Call::AddUsage {
                tag,
                logical,
                physical,
            } => self.add_usage(tag, logical, physical),
            Call::RemoveUsage {
                tag,
                logical,
                physical,
            } => self.remove_usage(tag, logical, physical),
            Call::Add {
                tag,
                data_size,
                block,
            } => self.add(tag, data_size, block),
            Call::Remove {
                tag,
                data_size,
                block,
            } => {
                let physical = extent_len(data_size, block).unwrap_or(0);
                self.remove_usage(tag, data_size, physical);
            }
            Call::Fits { tag, extra } => {
                let t = self.tag(tag);
                let whole = t.physical + t.reserved + u128::from(extra);
                return t.cap.is_none_or(|cap| whole <= u128::from(cap));
            }
            Call::Reserve { tag, bytes } => {
                self.reserved = plus(self.reserved, bytes);
                let t = self.tag(tag);
                t.reserved = plus(t.reserved, bytes);
            }
            Call::Unreserve { tag, bytes } => {
                self.reserved = minus(self.reserved, bytes);
                let t = self.tag(tag);
                t.reserved = minus(t.reserved, bytes);
            }
            Call::SetCap { tag, cap } => self.tag(tag).cap = cap,
        }
        false
    }

    /// "Every call on a tag makes a row for an unknown one."
    fn tag(&mut self, tag: u32) -> &mut Usage {
        self.tags.entry(tag).or_default()
    }

    fn add_usage(&mut self, tag: u32, logical: u64, physical: u64) {
        let t = self.tag(tag);
        t.logical = plus(t.logical, logical);
        t.physical = plus(t.physical, physical);
    }

    fn remove_usage(&mut self, tag: u32, logical: u64, physical: u64) {
        let t = self.tag(tag);
        t.logical = minus(t.logical, logical);
        t.physical = minus(t.physical, physical);
    }

    fn add(&mut self, tag: u32, data_size: u64, block: u64) {
        let physical = extent_len(data_size, block).unwrap_or(u64::MAX);
        self.add_usage(tag, data_size, physical);
    }

    /// "In tag order."
    pub fn flat(&self) -> Accounts {
        let mut rows = [Row::default(); MOST];
        for (row, (&tag, t)) in rows.iter_mut().zip(&self.tags) {
            *row = Row {
                tag,
                capped: t.cap.is_some(),
                logical: t.logical as u64,
                physical: t.physical as u64,
                reserved: t.reserved as u64,
                cap: t.cap.unwrap_or(0),
            };
        }
        Accounts {
            rows,
            count: self.tags.len(),
            reserved: self.reserved as u64,
        }
    }
}

//! The accounts, which the engine keeps to itself.

use crate::meta::{FillPattern, RegionKind, RegionName, RegionState, TableEntry};
use crate::space::{Accounting, within};
use crate::standins::Nowhere;
use crate::standins::store::Store;
use std::mem::take;

pub use crate::space::{SpaceReport, TagSpace};

/// A table entry of which the accounts read the state, the tag and the data size.
pub fn entry(ready: bool, tag: u32, data_size: u64) -> TableEntry {
    TableEntry {
        region_id: 0,
        kind: RegionKind::Append,
        state: if ready {
            RegionState::Ready
        } else {
            RegionState::Released
        },
        name: RegionName::new("a").expect("it is a name"),
        offset: 0,
        data_size,
        fill: FillPattern::Zeros,
        tag,
    }
}

#[derive(Default)]
pub struct Accounts(Accounting);

impl Accounts {
    pub fn from_entries(entries: &[TableEntry], block: u64) -> Self {
        Self(Accounting::from_entries(entries, block))
    }

    #[inline]
    pub fn from_usage(usage: &[(u32, u64, u64)]) -> Self {
        Self(Accounting::from_usage(usage))
    }

    #[inline]
    pub fn add_usage(&mut self, tag: u32, logical: u64, physical: u64) {
        self.0.add_usage(tag, logical, physical);
    }

    #[inline]
    pub fn remove_usage(&mut self, tag: u32, logical: u64, physical: u64) {
        self.0.remove_usage(tag, logical, physical);
    }

    pub fn add(&mut self, entry: &TableEntry, block: u64) {
        self.0.add(entry, block);
    }

    pub fn remove(&mut self, entry: &TableEntry, block: u64) {
        self.0.remove(entry, block);
    }

    #[inline]
    pub fn fits(&mut self, tag: u32, extra: u64) -> bool {
        self.0.fits(tag, extra)
    }

    #[inline]
    pub fn reserve(&mut self, tag: u32, bytes: u64) {
        within::reserve(&mut self.0, tag, bytes);
    }

    #[inline]
    pub fn unreserve(&mut self, tag: u32, bytes: u64) {
        self.0.unreserve(tag, bytes);
    }

    pub fn reserved(&self) -> u64 {
        self.0.reserved()
    }

    /// By `Store::set_cap`.
    pub fn set_cap(&mut self, tag: u32, cap: Option<u64>) {
        self.in_store(|store| store.set_cap(tag, cap));
    }

    /// By `Store::space`: the rows in tag order and what is reserved, beside an empty container.
    pub fn report(&mut self) -> SpaceReport {
        self.in_store(Store::space)
    }

    /// What a store answers that holds these accounts.
    fn in_store<T>(&mut self, call: impl FnOnce(&Store<Nowhere>) -> T) -> T {
        let store = Store::of(take(&mut self.0));
        let answer = call(&store);
        self.0 = store.into_accounts().expect("no other store has them");
        answer
    }
}

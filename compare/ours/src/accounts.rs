//! The accounts of crates/exports.

use crate::{FlatAnswer, FlatOption};
use std::fmt;

/// The most tags.
pub const MOST: usize = 96;

/// A tag's row. Without a cap, `capped` is false and `cap` 0.
#[derive(Clone, Copy, Debug, Default, PartialEq)]
#[repr(C)]
pub struct Row {
    pub tag: u32,
    pub capped: bool,
    pub logical: u64,
    pub physical: u64,
    pub reserved: u64,
    pub cap: u64,
}

/// Rows in tag order, how many there are, and the bytes reserved for all tags.
#[derive(Clone, Copy, PartialEq)]
#[repr(C)]
pub struct Accounts {
    pub rows: [Row; MOST],
    pub count: usize,
    pub reserved: u64,
}

/// The refusal, 0 if accepted, and the accounts.
#[derive(Clone, Copy, Debug, PartialEq)]
#[repr(C)]
pub struct Posted {
    pub refusal: u64,
    pub accounts: Accounts,
}

/// The same, and whether the bytes fit.
#[derive(Clone, Copy, Debug, PartialEq)]
#[repr(C)]
pub struct Asked {
    pub refusal: u64,
    pub fits: bool,
    pub accounts: Accounts,
}

/// The rows up to the last that is not blank.
impl fmt::Debug for Accounts {
    fn fmt(&self, f: &mut fmt::Formatter<'_>) -> fmt::Result {
        let blank = Row::default();
        let used = self.rows.iter().rposition(|r| *r != blank);
        f.debug_struct("Accounts")
            .field("count", &self.count)
            .field("reserved", &self.reserved)
            .field("rows", &&self.rows[..used.map_or(0, |i| i + 1)])
            .finish()
    }
}

unsafe extern "C" {
    #[link_name = "fundravai_accounts_empty"]
    pub safe fn empty() -> Accounts;
    #[link_name = "fundravai_accounts_add_usage"]
    pub safe fn add_usage(a: Accounts, tag: u32, logical: u64, physical: u64) -> Posted;
    #[link_name = "fundravai_accounts_remove_usage"]
    pub safe fn remove_usage(a: Accounts, tag: u32, logical: u64, physical: u64) -> Posted;
    #[link_name = "fundravai_accounts_add"]
    pub safe fn add(a: Accounts, tag: u32, data_size: u64, block: u64) -> Posted;
    #[link_name = "fundravai_accounts_remove"]
    pub safe fn remove(a: Accounts, tag: u32, data_size: u64, block: u64) -> Posted;
    #[link_name = "fundravai_accounts_fits"]
    pub safe fn fits(a: Accounts, tag: u32, extra: u64) -> Asked;
    #[link_name = "fundravai_accounts_reserve"]
    pub safe fn reserve(a: Accounts, tag: u32, bytes: u64) -> Posted;
    #[link_name = "fundravai_accounts_unreserve"]
    pub safe fn unreserve(a: Accounts, tag: u32, bytes: u64) -> Posted;
    #[link_name = "fundravai_accounts_reserved"]
    pub safe fn reserved(a: Accounts) -> u64;
    #[link_name = "fundravai_accounts_row"]
    pub safe fn row(a: Accounts, tag: u32) -> Row;
    #[link_name = "fundravai_accounts_row_at"]
    pub safe fn row_at(a: Accounts, i: usize) -> Row;
    #[link_name = "fundravai_row_blank"]
    pub safe fn row_blank(tag: u32) -> Row;
    #[link_name = "fundravai_row_add_usage"]
    pub safe fn row_add_usage(row: Row, logical: u64, physical: u64) -> Row;
    #[link_name = "fundravai_row_remove_usage"]
    pub safe fn row_remove_usage(row: Row, logical: u64, physical: u64) -> Row;
    #[link_name = "fundravai_row_reserve"]
    pub safe fn row_reserve(row: Row, bytes: u64) -> Row;
    #[link_name = "fundravai_row_unreserve"]
    pub safe fn row_unreserve(row: Row, bytes: u64) -> Row;
    #[link_name = "fundravai_row_fits"]
    pub safe fn row_fits(row: Row, extra: u64) -> bool;
    #[link_name = "fundravai_row_count_usage"]
    pub safe fn row_count_usage(row: &mut Row, logical: u64, physical: u64);
    #[link_name = "fundravai_row_uncount_usage"]
    pub safe fn row_uncount_usage(row: &mut Row, logical: u64, physical: u64);
    safe fn fundravai_row_set_cap(row: Row, capped: bool, cap: u64) -> Row;
    safe fn fundravai_accounts_set_cap(a: Accounts, tag: u32, capped: bool, cap: u64) -> Posted;
    safe fn fundravai_extent_len(data_size: u64, block: u64) -> FlatOption;
    fn fundravai_accounts_from_entries(
        states: *const u8,
        states_len: usize,
        tags: *const u32,
        tags_len: usize,
        data_sizes: *const u64,
        data_sizes_len: usize,
        block: u64,
    ) -> Posted;
    fn fundravai_accounts_from_usage(
        tags: *const u32,
        tags_len: usize,
        logical: *const u64,
        logical_len: usize,
        physical: *const u64,
        physical_len: usize,
    ) -> Posted;
    fn fundravai_accounts_post_each(
        a: Accounts,
        remove: bool,
        tags: *const u32,
        tags_len: usize,
        logical: *const u64,
        logical_len: usize,
        physical: *const u64,
        physical_len: usize,
    ) -> Posted;
    fn fundravai_accounts_count_each(
        a: Accounts,
        remove: bool,
        tags: *const u32,
        tags_len: usize,
        logical: *const u64,
        logical_len: usize,
        physical: *const u64,
        physical_len: usize,
    ) -> Posted;
    fn fundravai_row_count_each(row: *mut Row, usages: *const u64, usages_len: usize);
    fn fundravai_row_add_each(row: Row, usages: *const u64, usages_len: usize) -> Row;
    fn fundravai_accounts_fits_each(
        a: Accounts,
        tags: *const u32,
        tags_len: usize,
        extra: *const u64,
        extra_len: usize,
    ) -> FlatAnswer;
    fn fundravai_accounts_allows_each(
        a: Accounts,
        tags: *const u32,
        tags_len: usize,
        extra: *const u64,
        extra_len: usize,
    ) -> u64;
}

pub fn set_cap(a: Accounts, tag: u32, cap: Option<u64>) -> Posted {
    fundravai_accounts_set_cap(a, tag, cap.is_some(), cap.unwrap_or(0))
}

pub fn row_set_cap(row: Row, cap: Option<u64>) -> Row {
    fundravai_row_set_cap(row, cap.is_some(), cap.unwrap_or(0))
}

pub fn extent_len(data_size: u64, block: u64) -> Option<u64> {
    let r = fundravai_extent_len(data_size, block);
    assert!(r.some <= 1, "extent_len answers some = {}", r.some);
    (r.some == 1).then_some(r.value)
}

pub fn from_entries(states: &[u8], tags: &[u32], data_sizes: &[u64], block: u64) -> Posted {
    unsafe {
        fundravai_accounts_from_entries(
            states.as_ptr(),
            states.len(),
            tags.as_ptr(),
            tags.len(),
            data_sizes.as_ptr(),
            data_sizes.len(),
            block,
        )
    }
}

/// Tags, logical and physical bytes, a list for each.
#[derive(Clone, Copy)]
pub struct Usages<'a> {
    pub tags: &'a [u32],
    pub logical: &'a [u64],
    pub physical: &'a [u64],
}

pub fn from_usage(u: Usages) -> Posted {
    unsafe {
        fundravai_accounts_from_usage(
            u.tags.as_ptr(),
            u.tags.len(),
            u.logical.as_ptr(),
            u.logical.len(),
            u.physical.as_ptr(),
            u.physical.len(),
        )
    }
}

/// Adds or removes each usage in turn; what the last posting hands back.
pub fn post_each(a: Accounts, remove: bool, u: Usages) -> Posted {
    each(fundravai_accounts_post_each, a, remove, u)
}

/// The same in accounts that stay where they are from posting to posting.
pub fn count_each(a: Accounts, remove: bool, u: Usages) -> Posted {
    each(fundravai_accounts_count_each, a, remove, u)
}

type Postings = unsafe extern "C" fn(
    Accounts,
    bool,
    *const u32,
    usize,
    *const u64,
    usize,
    *const u64,
    usize,
) -> Posted;

fn each(postings: Postings, a: Accounts, remove: bool, u: Usages) -> Posted {
    let Usages {
        tags,
        logical,
        physical,
    } = u;
    unsafe {
        postings(
            a,
            remove,
            tags.as_ptr(),
            tags.len(),
            logical.as_ptr(),
            logical.len(),
            physical.as_ptr(),
            physical.len(),
        )
    }
}

/// Counts usages, each two numbers, logical and physical bytes, on a row that is lent.
pub fn row_count_each(row: &mut Row, usages: &[u64]) {
    unsafe { fundravai_row_count_each(row, usages.as_ptr(), usages.len()) }
}

/// The same on a row by value.
pub fn row_add_each(row: Row, usages: &[u64]) -> Row {
    unsafe { fundravai_row_add_each(row, usages.as_ptr(), usages.len()) }
}

/// Asks for each tag in turn: the last refusal, and how many fit.
pub fn fits_each(a: Accounts, tags: &[u32], extra: &[u64]) -> (u64, u64) {
    let r = unsafe {
        fundravai_accounts_fits_each(a, tags.as_ptr(), tags.len(), extra.as_ptr(), extra.len())
    };
    (r.refusal, r.value)
}

/// The same questions in accounts that stay where they are, and get no row: how many fit.
pub fn allows_each(a: Accounts, tags: &[u32], extra: &[u64]) -> u64 {
    unsafe {
        fundravai_accounts_allows_each(a, tags.as_ptr(), tags.len(), extra.as_ptr(), extra.len())
    }
}

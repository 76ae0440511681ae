//! A module inside space.rs, for what it keeps to itself.

use super::Accounting;

#[inline]
pub(crate) fn reserve(accounts: &mut Accounting, tag: u32, bytes: u64) {
    accounts.reserve(tag, bytes);
}

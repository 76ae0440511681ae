//! Safe calls that hand back a value, or why they are refused. include/fundravai.h says what each answers and what it
//! leaves.

use crate::header::{self, Object, Record, Reply};
use std::fmt;

/// Why a call is refused: the number that the header names. Nothing has changed.
#[derive(Clone, Copy, Debug, PartialEq)]
pub struct Refused(pub u64);

impl fmt::Display for Refused {
    fn fmt(&self, f: &mut fmt::Formatter<'_>) -> fmt::Result {
        write!(f, "refused, {}", self.0)
    }
}

impl Reply {
    /// The value of a call that is not refused: a byte, or 0 where it is done.
    fn value(self) -> Result<u64, Refused> {
        match self.kind {
            2 => Err(Refused(self.value)),
            _ => Ok(self.value),
        }
    }

    fn done(self) -> Result<(), Refused> {
        self.value().map(|_| ())
    }
}

/// A container that is open.
pub struct Container(Box<Object>);

impl Container {
    /// Opens a container with up to 64 records and the extents of all their headers. Its limits are the log of its
    /// block, its table's end and the file's length.
    pub fn open(
        limits: (u8, u64, u64),
        records: &[Record],
        listed: &[u64],
        scratch: &mut [u64],
    ) -> Result<Self, Refused> {
        let mut object = Object::new();
        header::open(&mut object, limits, records, listed, scratch)
            .done()
            .map(|()| Self(object))
    }

    /// The byte of its two header blocks.
    pub fn create(&mut self, number: u64, tag: u32, name: &[u8]) -> Result<u64, Refused> {
        header::create(&mut self.0, number, tag, name).value()
    }

    /// The byte at which its new extent begins.
    pub fn grow(&mut self, number: u64) -> Result<u64, Refused> {
        header::grow(&mut self.0, number).value()
    }

    pub fn publish(&mut self, number: u64, len: u64) -> Result<(), Refused> {
        header::publish(&mut self.0, number, len).done()
    }

    pub fn drop_region(&mut self, number: u64) -> Result<(), Refused> {
        header::drop(&mut self.0, number).done()
    }

    pub fn cap(&mut self, tag: u32, limit: Option<u64>) -> Result<(), Refused> {
        header::cap(&mut self.0, tag, limit.is_some(), limit.unwrap_or(0)).done()
    }

    /// The byte of the file that holds position `pos`.
    pub fn locate(&self, number: u64, pos: u64, len: u64) -> Result<u64, Refused> {
        header::locate(&self.0, number, pos, len).value()
    }

    pub fn held(&self) -> u64 {
        header::held(&self.0)
    }

    pub fn free(&self) -> u64 {
        header::free(&self.0)
    }

    /// How many bytes of the tag's regions are published, and how many they hold.
    pub fn totals(&self, tag: u32) -> (u64, u64) {
        (
            header::logical(&self.0, tag),
            header::physical(&self.0, tag),
        )
    }

    pub fn last_number(&self) -> u64 {
        header::last_number(&self.0)
    }

    pub fn region_count(&self) -> usize {
        header::region_count(&self.0)
    }

    /// The region at place `i`, with its extents as pairs at the front of `out`; 120 numbers are enough.
    pub fn region(&self, i: usize, out: &mut [u64]) -> Result<Record, Refused> {
        let mut record = Record::default();
        header::region(&self.0, i, &mut record, out)
            .done()
            .map(|()| record)
    }
}

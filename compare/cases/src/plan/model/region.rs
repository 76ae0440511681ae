//! Ranges, regions and runs.

use super::super::call::{Entry, Header, Name, Range, Record};

/// The last byte of a range is in front of this.
pub fn end(range: Range) -> u64 {
    range.0.saturating_add(range.1)
}

/// Whether some byte is in both.
pub fn meet(a: Range, b: Range) -> bool {
    a.0.max(b.0) < end(a).min(end(b))
}

/// The least multiple of the block at or above a value below 2^63.
pub fn up(value: u64, block: u64) -> u64 {
    value.div_ceil(block) * block
}

#[derive(Clone)]
pub struct Region {
    pub number: u64,
    pub tag: u32,
    pub name: Vec<u8>,
    pub kind: u8,
    pub flags: u8,
    /// The region header's block log.
    pub log2_block: u8,
    pub headers: [u64; 2],
    pub span: (u64, u64),
    pub seq: u64,
    pub extents: Vec<Range>,
    pub published: u64,
}

impl Region {
    pub fn capacity(&self) -> u64 {
        self.extents.iter().map(|e| e.1).sum()
    }

    /// As open is given it.
    pub fn record(&self) -> Record {
        let extent_count = self.extents.len() as u16;
        let entry = Entry {
            kind: self.kind,
            flags: self.flags,
            extent_count,
            header_a: self.headers[0],
            header_b: self.headers[1],
            span_start: self.span.0,
            span_end: self.span.1,
            data_size: self.published,
            capacity: self.capacity(),
            footprint_seq: self.seq,
        };
        let header = Header {
            region_id: self.number,
            kind: self.kind,
            flags: self.flags,
            ready: true,
            log2_block: self.log2_block,
            extent_count,
        };
        Record {
            number: self.number,
            tag: self.tag,
            name: Name::new(&self.name),
            entry,
            header,
        }
    }

    pub fn footprint(&self, block: u64) -> Vec<Range> {
        let headers = self.headers.map(|at| (at, block));
        [&headers, &self.extents[..]].concat()
    }
}

/// A run: its start in the region's data, its file offset and length.
pub struct Run {
    pub start: u64,
    pub file: u64,
    pub len: u64,
}

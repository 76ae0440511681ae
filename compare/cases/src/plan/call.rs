//! What open is given, the calls on a plan, and how they are answered.

use std::fmt;

pub type Range = (u64, u64);

/// Document 01's limits of a plan.
pub const REGIONS: usize = 64;
pub const EXTENTS: usize = 60;
pub const TAGS: usize = 96;
pub const NAME: usize = 24;

/// Kinds, as a table has them.
pub const APPEND: u8 = 1;
pub const SLOT: u8 = 3;

#[derive(Clone, Copy, Debug, PartialEq)]
pub struct Limits {
    pub log2_block: u8,
    pub table_end: u64,
    pub file_len: u64,
}

impl Limits {
    pub fn block(&self) -> u64 {
        1 << self.log2_block
    }
}

/// A name: its first `len` bytes. What stands behind them is no part of it.
#[derive(Clone, Copy)]
pub struct Name {
    pub bytes: [u8; NAME],
    pub len: u8,
}

impl Name {
    /// Of the first 24 bytes, with the length that all of them have.
    pub fn new(text: &[u8]) -> Self {
        let mut bytes = [0; NAME];
        let n = text.len().min(NAME);
        bytes[..n].copy_from_slice(&text[..n]);
        let len = text.len().try_into().unwrap_or(u8::MAX);
        Self { bytes, len }
    }

    /// All that is there of it, if it is too long.
    pub fn text(&self) -> &[u8] {
        &self.bytes[..usize::from(self.len).min(NAME)]
    }
}

impl PartialEq for Name {
    fn eq(&self, other: &Self) -> bool {
        (self.len, self.text()) == (other.len, other.text())
    }
}

impl fmt::Debug for Name {
    fn fmt(&self, f: &mut fmt::Formatter<'_>) -> fmt::Result {
        write!(
            f,
            "{}:{:?}",
            self.len,
            self.text().escape_ascii().to_string()
        )
    }
}

#[derive(Clone, Copy, Debug, PartialEq)]
pub struct Entry {
    pub kind: u8,
    pub flags: u8,
    pub extent_count: u16,
    pub header_a: u64,
    pub header_b: u64,
    pub span_start: u64,
    pub span_end: u64,
    pub data_size: u64,
    pub capacity: u64,
    pub footprint_seq: u64,
}

#[derive(Clone, Copy, Debug, PartialEq)]
pub struct Header {
    pub region_id: u64,
    pub kind: u8,
    pub flags: u8,
    pub ready: bool,
    pub log2_block: u8,
    pub extent_count: u16,
}

/// A region as open is given it, and as a plan hands it out. Its header's extents stand elsewhere.
#[derive(Clone, Copy, Debug, PartialEq)]
pub struct Record {
    pub number: u64,
    pub tag: u32,
    pub name: Name,
    pub entry: Entry,
    pub header: Header,
}

/// How many numbers the lists have that the plan's holder lends.
#[derive(Clone, Copy, PartialEq)]
pub struct Places {
    pub extents: usize,
    pub starts: usize,
    pub files: usize,
}

impl Places {
    /// 64 rows of 60 places.
    pub const ALL: Self = Self {
        extents: 2 * REGIONS * EXTENTS,
        starts: REGIONS * EXTENTS,
        files: REGIONS * EXTENTS,
    };

    pub fn too_few(&self) -> bool {
        let all = Self::ALL;
        self.extents < all.extents || self.starts < all.starts || self.files < all.files
    }
}

impl fmt::Debug for Places {
    fn fmt(&self, f: &mut fmt::Formatter<'_>) -> fmt::Result {
        match *self {
            Self::ALL => write!(f, "all places"),
            Self {
                extents,
                starts,
                files,
            } => write!(f, "{extents}, {starts} and {files} places"),
        }
    }
}

/// All that open is given. The headers' extents are pairs end to end.
#[derive(Clone, Debug)]
pub struct Opening {
    pub limits: Limits,
    pub records: Vec<Record>,
    pub extents: Vec<u64>,
    /// How many numbers of scratch.
    pub scratch: usize,
    pub lent: Places,
}

impl Opening {
    /// Without records.
    pub fn empty(limits: Limits) -> Self {
        Self {
            limits,
            records: Vec::new(),
            extents: Vec::new(),
            scratch: 0,
            lent: Places::ALL,
        }
    }
}

#[derive(Clone, Debug, PartialEq)]
pub enum Call {
    Create { id: u64, tag: u32, name: Vec<u8> },
    Grow { id: u64 },
    Publish { id: u64, len: u64 },
    Drop { id: u64 },
    Cap { tag: u32, max: Option<u64> },
    Locate { id: u64, pos: u64, n: u64 },
}

/// The calls by name, open in front, each with 0 and the refusals that it can have.
pub const CALLS: [(&str, &[usize]); 7] = [
    (
        "open",
        &[0, 1, 2, 3, 4, 5, 6, 7, 8, 9, 10, 11, 12, 13, 14, 15],
    ),
    ("create", &[0, 1, 14, 18, 19, 20, 21, 22]),
    ("grow", &[0, 1, 16, 17, 19, 21, 22]),
    ("publish", &[0, 10, 16, 23]),
    ("drop", &[0, 1, 16]),
    ("cap", &[0, 19]),
    ("locate", &[0, 1, 16, 23, 24]),
];

impl Call {
    /// Its place in `CALLS`.
    pub fn place(&self) -> usize {
        match self {
            Self::Create { .. } => 1,
            Self::Grow { .. } => 2,
            Self::Publish { .. } => 3,
            Self::Drop { .. } => 4,
            Self::Cap { .. } => 5,
            Self::Locate { .. } => 6,
        }
    }
}

#[derive(Clone, Copy, Debug, PartialEq)]
pub enum Answer {
    /// Accepted: the byte placed or located.
    At(u64),
    /// Accepted.
    Done,
    Refused(u64),
}

impl Answer {
    /// 0 if accepted.
    pub fn refusal(self) -> u64 {
        match self {
            Self::Refused(number) => number,
            Self::At(_) | Self::Done => 0,
        }
    }

    pub fn accepted(self) -> bool {
        self.refusal() == 0
    }
}

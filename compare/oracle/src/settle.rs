//! `settle`, which the engine keeps to itself, on records whose names are any bytes.

use crate::engine_footprint::{Settled, Unavailable, Usable, settle};
use crate::meta2::Extent;

/// A region's sequence number, name and ranges. An unavailable one may have no name.
pub struct Record {
    pub seq: u64,
    pub name: Option<String>,
    pub ranges: Vec<Extent>,
}

/// A name of any bytes as text: byte b becomes the character U+00b, so that different names stay
/// different.
pub fn text(name: &[u8]) -> String {
    name.iter().map(|&b| char::from(b)).collect()
}

/// The records as `settle` takes them.
pub struct Regions<'a> {
    usable: Vec<Usable<'a>>,
    unavailable: Vec<Unavailable<'a>>,
}

impl<'a> Regions<'a> {
    pub fn new(usable: &'a [Record], unavailable: &'a [Record]) -> Self {
        let usable = usable.iter().map(|r| Usable {
            name: r.name.as_deref().expect("a usable record has a name"),
            seq: r.seq,
            ranges: &r.ranges,
        });
        let unavailable = unavailable.iter().map(|r| Unavailable {
            seq: r.seq,
            own: &r.ranges,
            name: r.name.as_deref(),
        });
        Self {
            usable: usable.collect(),
            unavailable: unavailable.collect(),
        }
    }

    pub fn settle(&self) -> Settlement {
        Settlement(settle(&self.usable, &self.unavailable))
    }
}

pub struct Settlement(Vec<Settled>);

impl Settlement {
    /// A number for each usable record: 1 overlapped + 2 renamed + 4 superseded.
    pub fn marks(&self) -> Vec<u8> {
        let mark = |s: &Settled| {
            u8::from(s.overlapped) + 2 * u8::from(s.renamed) + 4 * u8::from(s.superseded)
        };
        self.0.iter().map(mark).collect()
    }
}

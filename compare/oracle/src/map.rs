//! The region map, which the engine keeps to itself, and its asserts as document 01's refusals.

use crate::meta2::Extent;
use crate::regionmap::RegionMap;
use std::any::Any;
use std::panic::{AssertUnwindSafe, catch_unwind, resume_unwind, set_hook, take_hook};
use std::sync::Once;

pub struct Map(RegionMap);

impl Map {
    #[inline]
    pub fn from_extents(extents: &[Extent], len: u64) -> Self {
        Self(RegionMap::from_extents(extents, len))
    }

    #[inline]
    pub fn with_room(self, room: usize) -> Self {
        Self(self.0.with_room(room))
    }

    #[inline]
    pub fn publish_len(&self, len: u64) {
        self.0.publish_len(len);
    }

    #[inline]
    pub fn extend(&self, file: u64, n: u64) {
        self.0.extend(file, n);
    }

    #[inline]
    pub fn locate(&self, pos: u64, n: u64) -> u64 {
        self.0.locate(pos, n)
    }

    /// The runs, the first one first: file offset and length.
    pub fn extents(&self) -> impl Iterator<Item = Extent> {
        self.0.extents()
    }

    /// How many bytes are published.
    pub fn len(&self) -> u64 {
        self.0.len()
    }

    pub fn capacity(&self) -> u64 {
        self.0.capacity()
    }
}

/// What a call on a map answers, or document 01's number for the assert that it fails. An assert
/// stands before every change, so the map is then as it was. Any other panic goes on.
pub fn refusable<T>(call: impl FnOnce() -> T) -> Result<T, u64> {
    static QUIET: Once = Once::new();
    QUIET.call_once(|| {
        let loud = take_hook();
        set_hook(Box::new(move |panic| {
            if number(panic.payload()).is_none() {
                loud(panic);
            }
        }));
    });
    catch_unwind(AssertUnwindSafe(call))
        .map_err(|payload| number(&*payload).unwrap_or_else(|| resume_unwind(payload)))
}

/// Document 01's number for the assert whose message this is.
fn number(payload: &(dyn Any + Send)) -> Option<u64> {
    let text = match payload.downcast_ref::<String>() {
        Some(text) => text.as_str(),
        None => payload.downcast_ref::<&str>()?,
    };
    let asserts = [
        ("more runs than the region may have", 19),
        ("data past the capacity", 23),
        ("data without extents", 23),
        ("outside the map", 23),
        ("crosses the run", 24),
    ];
    asserts
        .iter()
        .find(|(words, _)| text.contains(words))
        .map(|&(_, number)| number)
}

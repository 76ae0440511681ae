//! The Rust project's own files, built unchanged from the sources beside the checkout (rustfmt
//! would lay them out anew).

// the engine's files name the others' by their crates
extern crate self as store_io_core;
extern crate self as store_io_format;
extern crate self as store_io_platform;

#[rustfmt::skip]
#[path = "../../../../shared/docs/src/crates/store-io-core/src/align.rs"]
pub mod align;

pub mod codec;

#[rustfmt::skip]
#[path = "../../../../shared/docs/src/crates/store-io-format/src/meta.rs"]
pub mod meta;

#[rustfmt::skip]
#[path = "../../../../shared/docs/src/crates/store-io-format/src/meta2.rs"]
pub mod meta2;

#[rustfmt::skip]
#[path = "../../../../shared/docs/src/crates/store-io-format/src/footprint.rs"]
pub mod footprint;

pub mod header;

#[rustfmt::skip]
#[path = "../../../../shared/docs/src/crates/store-io-core/src/evidence.rs"]
pub mod evidence;

#[rustfmt::skip]
#[allow(dead_code)]
#[path = "../../../../shared/docs/src/crates/store-io-engine/src/layout.rs"]
mod layout;

pub mod block;

/// The atomics that the engine's files use.
mod sync {
    pub use std::sync::atomic::{AtomicU64, Ordering};
}

#[rustfmt::skip]
#[allow(dead_code, unexpected_cfgs)]
#[path = "../../../../shared/docs/src/crates/store-io-engine/src/regionmap.rs"]
mod regionmap;

pub mod map;

#[rustfmt::skip]
#[allow(dead_code)]
#[path = "../../../../shared/docs/src/crates/store-io-engine/src/footprint.rs"]
mod engine_footprint;

pub mod free;
pub mod settle;

#[allow(dead_code)]
mod standins;
pub use standins::{Platform, class, error};
use standins::{io, options, region, slot, store};

// declares the module `space`: build.rs says how it is built
include!(concat!(env!("OUT_DIR"), "/modules.rs"));

pub mod accounts;

/// How the project sorts pairs: `sort_unstable` of the standard library.
pub fn sort_pairs(pairs: &mut [(u64, u64)]) {
    pairs.sort_unstable();
}

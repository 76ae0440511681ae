//! The planner of footage containers for Rust, over libfundravai.a.

mod container;
pub mod header;

pub use container::{Container, Refused};
pub use header::Record;

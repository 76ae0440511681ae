//! The inputs on which both sides are run, a module for each module of the Rust.

pub mod accounting;
pub mod align;
pub mod flat;
pub mod footprint;
pub mod freemap;
pub mod layout;
pub mod lent;
pub mod plan;
pub mod program;
pub mod random;
pub mod regionmap;
pub mod settle;
pub mod shrink;
pub mod sort;
pub mod stored;
pub mod table;

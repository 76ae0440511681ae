//! The block log, which the engine keeps to itself.

use crate::evidence::{Evidence, PlatformKind};
use crate::layout;

/// Evidence of which nothing is known.
pub fn unknown() -> Evidence {
    Evidence::unknown(PlatformKind::Sim)
}

/// Sets what `choose_log2_block` reads of evidence: the logical and the physical block, the preferred write
/// size, and the direct I/O alignments of memory and offset.
#[inline]
pub fn set(evidence: &mut Evidence, figures: [u32; 5]) {
    let [logical, physical, write, memory, offset] = figures;
    evidence.device.logical_block = logical;
    evidence.device.physical_block = physical;
    evidence.device.optimal_write = write;
    evidence.fs.dio_mem_align = memory;
    evidence.fs.dio_offset_align = offset;
}

#[inline]
pub fn choose_log2_block(evidence: &Evidence, requested: Option<u32>) -> u8 {
    layout::choose_log2_block(evidence, requested)
}

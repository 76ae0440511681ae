//! Region headers with any extents. The decoder refuses extents that document 01 lets through to
//! the check (empty ones, ones off the block), so they go past it as a slot region's object.

use crate::meta::{FillPattern, RegionKind, RegionState};
use crate::meta2::{
    Extent, REGION_HEADER2_LEN, RegionHeader2, RegionHeaderView, decode_region_header,
    encode_region_header,
};

/// The kind that 1, 2 or 3 stands for in a table.
pub fn kind(code: u8) -> RegionKind {
    RegionKind::from_u8(code).expect("a kind is 1, 2 or 3")
}

/// The bytes of a slot region's header whose object is the list of extents, at most 4,084.
pub fn header_bytes(extents: &[Extent]) -> Vec<u8> {
    let object: Vec<u8> = extents
        .iter()
        .flat_map(|e| [e.0, e.1])
        .flat_map(u64::to_le_bytes)
        .collect();
    let header = RegionHeader2 {
        region_id: 0,
        kind: RegionKind::Slot,
        state: RegionState::Ready,
        fill: FillPattern::Zeros,
        flags: 0,
        compat_flags: 0,
        log2_block: 16,
        extent_count: 0,
        region_generation: 1,
        fill_key: [0; 16],
        object_len: object.len() as u32,
    };
    let mut bytes = vec![0; REGION_HEADER2_LEN + object.len()];
    encode_region_header(&mut bytes, &header, &[], &object).expect("the header is encoded");
    bytes
}

/// The decoded bytes of `header_bytes`. The caller sets the fields of its `header`; it then lists as
/// many of the extents as `extent_count` says.
pub fn header_view(bytes: &[u8]) -> RegionHeaderView<'_> {
    decode_region_header(bytes, 16, u64::MAX).expect("the header is decoded")
}

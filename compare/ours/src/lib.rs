//! The Rattle functions of crates/exports and crates/plan_exports. No call asks anything of its caller, so each has a
//! safe form. Those of crates/fundravai stand in examples/rust.

pub mod accounts;
pub mod block;
pub mod free;
pub mod map;
pub mod plan;
pub mod settle;

#[repr(C)]
struct FlatOption {
    some: u64,
    value: u64,
}

#[repr(C)]
struct FlatAnswer {
    refusal: u64,
    value: u64,
}

unsafe extern "C" {
    fn fundravai_align_up(value: u64, align: u64) -> FlatOption;
    fn fundravai_align_up_each(numbers: *const u64, len: usize) -> u64;
    fn fundravai_sort_pairs(s: *mut u64, len: usize) -> u64;
    fn fundravai_max_extents(log2_block: u8) -> usize;
    fn fundravai_fill_footprint(
        log2_block: u8,
        table_end: u64,
        file_len: u64,
        region_id: u64,
        kind: u8,
        flags: u8,
        extent_count: u16,
        header_a: u64,
        header_b: u64,
        span_start: u64,
        span_end: u64,
        data_size: u64,
        capacity: u64,
        footprint_seq: u64,
        header_region_id: u64,
        header_kind: u8,
        header_flags: u8,
        header_ready: bool,
        header_log2_block: u8,
        header_extent_count: u16,
        extents: *const u64,
        extents_len: usize,
        scratch: *mut u64,
        scratch_len: usize,
        extra_offset: *mut u64,
        extra_len: *mut u64,
    ) -> u64;
    fn fundravai_check_region(
        log2_block: u8,
        table_end: u64,
        file_len: u64,
        region_id: u64,
        kind: u8,
        flags: u8,
        extent_count: u16,
        header_a: u64,
        header_b: u64,
        span_start: u64,
        span_end: u64,
        data_size: u64,
        capacity: u64,
        footprint_seq: u64,
        header_region_id: u64,
        header_kind: u8,
        header_flags: u8,
        header_ready: bool,
        header_log2_block: u8,
        header_extent_count: u16,
        extents: *const u64,
        extents_len: usize,
        scratch: *mut u64,
        scratch_len: usize,
        refusal: *mut u64,
        extra_offset: *mut u64,
        extra_len: *mut u64,
    ) -> usize;
    fn fundravai_runs(
        extents: *const u64,
        extents_len: usize,
        starts: *mut u64,
        starts_len: usize,
        files: *mut u64,
        files_len: usize,
        lens: *mut u64,
        lens_len: usize,
    ) -> FlatAnswer;
}

pub fn align_up(value: u64, align: u64) -> Option<u64> {
    let r = unsafe { fundravai_align_up(value, align) };
    assert!(r.some <= 1, "align_up answers some = {}", r.some);
    (r.some == 1).then_some(r.value)
}

/// The greatest place of these pairs of a value and an align, 0 if there is none.
pub fn align_up_each(numbers: &[u64]) -> u64 {
    unsafe { fundravai_align_up_each(numbers.as_ptr(), numbers.len()) }
}

/// Answers the refusal, 0 if accepted.
pub fn sort_pairs(s: &mut [u64]) -> u64 {
    unsafe { fundravai_sort_pairs(s.as_mut_ptr(), s.len()) }
}

pub fn max_extents(log2_block: u8) -> usize {
    unsafe { fundravai_max_extents(log2_block) }
}

/// What `check_region` reads beside the extents: the container's limits, the region's number, the
/// table entry and the region header. A kind is 1 (Append), 2 (Page) or 3 (Slot).
#[derive(Debug)]
pub struct Record {
    pub log2_block: u8,
    pub table_end: u64,
    pub file_len: u64,
    pub region_id: u64,
    pub kind: u8,
    pub flags: u8,
    pub extent_count: u16,
    pub header_a: u64,
    pub header_b: u64,
    pub span_start: u64,
    pub span_end: u64,
    pub data_size: u64,
    pub capacity: u64,
    pub footprint_seq: u64,
    pub header_region_id: u64,
    pub header_kind: u8,
    pub header_flags: u8,
    pub header_ready: bool,
    pub header_log2_block: u8,
    pub header_extent_count: u16,
}

/// Answers the refusal, 0 if accepted. An extra extent's offset and length go to `extra`.
pub fn fill_footprint(
    record: &Record,
    extents: &[u64],
    scratch: &mut [u64],
    extra: &mut [u64; 2],
) -> u64 {
    let [extra_offset, extra_len] = extra;
    unsafe {
        fundravai_fill_footprint(
            record.log2_block,
            record.table_end,
            record.file_len,
            record.region_id,
            record.kind,
            record.flags,
            record.extent_count,
            record.header_a,
            record.header_b,
            record.span_start,
            record.span_end,
            record.data_size,
            record.capacity,
            record.footprint_seq,
            record.header_region_id,
            record.header_kind,
            record.header_flags,
            record.header_ready,
            record.header_log2_block,
            record.header_extent_count,
            extents.as_ptr(),
            extents.len(),
            scratch.as_mut_ptr(),
            scratch.len(),
            extra_offset,
            extra_len,
        )
    }
}

/// Answers the refusal, 0 if accepted, and how many numbers at the front of scratch are handed
/// back. An extra extent's offset and length go to `extra`. What is behind the part is not promised.
pub fn check_region(
    record: &Record,
    extents: &[u64],
    scratch: &mut [u64],
    extra: &mut [u64; 2],
) -> (u64, usize) {
    let mut refusal = u64::MAX;
    let [extra_offset, extra_len] = extra;
    let part = unsafe {
        fundravai_check_region(
            record.log2_block,
            record.table_end,
            record.file_len,
            record.region_id,
            record.kind,
            record.flags,
            record.extent_count,
            record.header_a,
            record.header_b,
            record.span_start,
            record.span_end,
            record.data_size,
            record.capacity,
            record.footprint_seq,
            record.header_region_id,
            record.header_kind,
            record.header_flags,
            record.header_ready,
            record.header_log2_block,
            record.header_extent_count,
            extents.as_ptr(),
            extents.len(),
            scratch.as_mut_ptr(),
            scratch.len(),
            &mut refusal,
            extra_offset,
            extra_len,
        )
    };
    (refusal, part)
}

/// Answers the refusal, 0 if accepted, and how many runs were written.
pub fn runs(
    extents: &[u64],
    starts: &mut [u64],
    files: &mut [u64],
    lens: &mut [u64],
) -> (u64, u64) {
    let r = unsafe {
        fundravai_runs(
            extents.as_ptr(),
            extents.len(),
            starts.as_mut_ptr(),
            starts.len(),
            files.as_mut_ptr(),
            files.len(),
            lens.as_mut_ptr(),
            lens.len(),
        )
    };
    (r.refusal, r.value)
}

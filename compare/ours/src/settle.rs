//! The settlement of crates/exports.

unsafe extern "C" {
    fn fundravai_settle(
        usable: usize,
        seqs: *const u64,
        seqs_len: usize,
        counts: *const u64,
        counts_len: usize,
        ranges: *const u64,
        ranges_len: usize,
        lens: *const u8,
        lens_len: usize,
        names: *const u8,
        names_len: usize,
        unavailable: usize,
        own_seqs: *const u64,
        own_seqs_len: usize,
        own_counts: *const u64,
        own_counts_len: usize,
        own_ranges: *const u64,
        own_ranges_len: usize,
        own_lens: *const u8,
        own_lens_len: usize,
        own_names: *const u8,
        own_names_len: usize,
        marks: *mut u8,
        marks_len: usize,
        scratch: *mut u64,
        scratch_len: usize,
    ) -> u64;
}

/// So many records of one kind: sequence numbers, counts of ranges, the ranges one record after
/// another, lengths of names (255 for none, unavailable records only), and 24 bytes for each name.
#[derive(Clone, Copy)]
pub struct Records<'a> {
    pub count: usize,
    pub seqs: &'a [u64],
    pub counts: &'a [u64],
    pub ranges: &'a [u64],
    pub lens: &'a [u8],
    pub names: &'a [u8],
}

/// Answers the refusal, 0 if accepted. A mark for each usable record goes to `marks`: 1 overlapped +
/// 2 renamed + 4 superseded.
pub fn settle(usable: Records, unavailable: Records, marks: &mut [u8], scratch: &mut [u64]) -> u64 {
    unsafe {
        fundravai_settle(
            usable.count,
            usable.seqs.as_ptr(),
            usable.seqs.len(),
            usable.counts.as_ptr(),
            usable.counts.len(),
            usable.ranges.as_ptr(),
            usable.ranges.len(),
            usable.lens.as_ptr(),
            usable.lens.len(),
            usable.names.as_ptr(),
            usable.names.len(),
            unavailable.count,
            unavailable.seqs.as_ptr(),
            unavailable.seqs.len(),
            unavailable.counts.as_ptr(),
            unavailable.counts.len(),
            unavailable.ranges.as_ptr(),
            unavailable.ranges.len(),
            unavailable.lens.as_ptr(),
            unavailable.lens.len(),
            unavailable.names.as_ptr(),
            unavailable.names.len(),
            marks.as_mut_ptr(),
            marks.len(),
            scratch.as_mut_ptr(),
            scratch.len(),
        )
    }
}

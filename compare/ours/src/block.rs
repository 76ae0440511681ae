//! The block log.

unsafe extern "C" {
    fn fundravai_choose_log2_block(
        logical_block: u32,
        physical_block: u32,
        optimal_write: u32,
        dio_mem_align: u32,
        dio_offset_align: u32,
        requested: bool,
        request: u32,
    ) -> u8;
    fn fundravai_choose_log2_block_each(cases: *const u32, cases_len: usize) -> u64;
}

/// The figures are the logical and the physical block, the preferred write size, and the direct I/O
/// alignments of memory and offset.
pub fn choose_log2_block(figures: [u32; 5], requested: Option<u32>) -> u8 {
    let [logical, physical, write, memory, offset] = figures;
    let request = requested.unwrap_or(0);
    unsafe {
        fundravai_choose_log2_block(
            logical,
            physical,
            write,
            memory,
            offset,
            requested.is_some(),
            request,
        )
    }
}

/// The sum of the logs that each six numbers give, five figures and a request.
pub fn choose_log2_block_each(cases: &[u32]) -> u64 {
    unsafe { fundravai_choose_log2_block_each(cases.as_ptr(), cases.len()) }
}

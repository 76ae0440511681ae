//! include/fundravai.h in Rust; what it says of a struct or a function holds here. Whatever it asks of pointers and
//! bools, references, slices and bools of Rust keep to, so each call has a safe form.

/// A plan and its lists. Only the library reads or writes what is in it.
#[repr(C)]
pub struct Object {
    numbers: [u64; 16_935],
}

impl Object {
    /// One that is not open.
    pub fn new() -> Box<Self> {
        Box::new(Self {
            numbers: [0; 16_935],
        })
    }
}

/// Done is 0, a byte 1 and the byte, a refusal 2 and its number.
#[derive(Clone, Copy, Debug)]
#[repr(C)]
pub struct Reply {
    pub kind: u8,
    pub value: u64,
}

/// A region as its table entry and its header have it; those of the header begin with h.
#[derive(Clone, Copy, Debug, Default, PartialEq)]
#[repr(C)]
pub struct Record {
    pub number: u64,
    pub tag: u32,
    pub name: [u8; 24],
    pub name_len: u8,
    pub kind: u8,
    pub flags: u8,
    pub extent_count: u16,
    pub header_a: u64,
    pub header_b: u64,
    pub span_start: u64,
    pub span_end: u64,
    pub data_size: u64,
    pub capacity: u64,
    pub footprint_seq: u64,
    pub hnumber: u64,
    pub hkind: u8,
    pub hflags: u8,
    pub hready: bool,
    pub hlog2: u8,
    pub hcount: u16,
}

// As the header has them.
const _: () = assert!(size_of::<Object>() == 135_480 && size_of::<Reply>() == 16);
const _: () = assert!(size_of::<Record>() == 120);

unsafe extern "C" {
    fn fundravai_open(
        c: &mut Object,
        log2_block: u8,
        table_end: u64,
        file_len: u64,
        records: *const Record,
        record_count: usize,
        listed: *const u64,
        listed_count: usize,
        scratch: *mut u64,
        scratch_count: usize,
    ) -> Reply;
    fn fundravai_create(
        c: &mut Object,
        number: u64,
        tag: u32,
        name: *const u8,
        name_len: usize,
    ) -> Reply;
    #[link_name = "fundravai_grow"]
    pub safe fn grow(c: &mut Object, number: u64) -> Reply;
    #[link_name = "fundravai_publish"]
    pub safe fn publish(c: &mut Object, number: u64, len: u64) -> Reply;
    #[link_name = "fundravai_drop"]
    pub safe fn drop(c: &mut Object, number: u64) -> Reply;
    #[link_name = "fundravai_cap"]
    pub safe fn cap(c: &mut Object, tag: u32, capped: bool, limit: u64) -> Reply;
    #[link_name = "fundravai_locate"]
    pub safe fn locate(c: &Object, number: u64, pos: u64, len: u64) -> Reply;
    #[link_name = "fundravai_held"]
    pub safe fn held(c: &Object) -> u64;
    #[link_name = "fundravai_free"]
    pub safe fn free(c: &Object) -> u64;
    #[link_name = "fundravai_logical"]
    pub safe fn logical(c: &Object, tag: u32) -> u64;
    #[link_name = "fundravai_physical"]
    pub safe fn physical(c: &Object, tag: u32) -> u64;
    #[link_name = "fundravai_last_number"]
    pub safe fn last_number(c: &Object) -> u64;
    #[link_name = "fundravai_region_count"]
    pub safe fn region_count(c: &Object) -> usize;
    fn fundravai_region(
        c: &Object,
        i: usize,
        record: &mut Record,
        out: *mut u64,
        out_count: usize,
    ) -> Reply;
}

pub fn open(
    c: &mut Object,
    (log2_block, table_end, file_len): (u8, u64, u64),
    records: &[Record],
    listed: &[u64],
    scratch: &mut [u64],
) -> Reply {
    unsafe {
        fundravai_open(
            c,
            log2_block,
            table_end,
            file_len,
            records.as_ptr(),
            records.len(),
            listed.as_ptr(),
            listed.len(),
            scratch.as_mut_ptr(),
            scratch.len(),
        )
    }
}

pub fn create(c: &mut Object, number: u64, tag: u32, name: &[u8]) -> Reply {
    unsafe { fundravai_create(c, number, tag, name.as_ptr(), name.len()) }
}

pub fn region(c: &Object, i: usize, record: &mut Record, out: &mut [u64]) -> Reply {
    unsafe { fundravai_region(c, i, record, out.as_mut_ptr(), out.len()) }
}

//! The parts of the one object that crates/fundravai is lent, whose calls are declared in examples/rust; and
//! crates/plan_exports, whose lists may have any length.

use crate::accounts::Accounts;
use fundravai::header::{self, Object, Record, Reply};

/// The most regions.
pub const MOST: usize = 64;

#[derive(Clone, Copy, PartialEq)]
#[repr(C)]
pub struct Region {
    pub number: u64,
    pub tag: u32,
    pub name: [u8; 24],
    pub name_len: u8,
    pub kind: u8,
    pub flags: u8,
    pub log2_block: u8,
    pub header_a: u64,
    pub header_b: u64,
    pub span_start: u64,
    pub span_end: u64,
    pub footprint_seq: u64,
    pub extent_count: usize,
    pub row: usize,
    pub first: u64,
    pub len: u64,
    pub capacity: u64,
    pub runs: usize,
    pub room: usize,
}

#[derive(Clone, Copy, PartialEq)]
#[repr(C)]
pub struct Plan {
    pub log2_block: u8,
    pub table_end: u64,
    pub file_len: u64,
    pub last: u64,
    pub count: usize,
    pub regions: [Region; MOST],
    pub accounts: Accounts,
}

/// A plan and its lists: the library's object, with its parts.
#[derive(Clone, PartialEq)]
#[repr(C)]
pub struct Container {
    pub plan: Plan,
    pub extents: [u64; 7680],
    pub starts: [u64; 3840],
    pub files: [u64; 3840],
}

/// As include/fundravai.h has them; the example in C asserts the same of its own.
const _: () = assert!(size_of::<Region>() == 136 && size_of::<Plan>() == 12_600);
const _: () = assert!(size_of::<Container>() == size_of::<Object>());
const _: () = assert!(align_of::<Container>() == align_of::<Object>());

/// The same memory, as the library is lent it: of the same size, aligned alike, and the bools that a call leaves there
/// are 0 or 1.
impl Container {
    pub fn object(&self) -> &Object {
        unsafe { &*std::ptr::from_ref(self).cast() }
    }

    pub fn object_mut(&mut self) -> &mut Object {
        unsafe { &mut *std::ptr::from_mut(self).cast() }
    }
}

#[repr(C)]
struct Outcome {
    kind: u8,
    value: u64,
    plan: Plan,
}

#[repr(C)]
struct Each {
    accepted: u64,
    last: Reply,
    plan: Plan,
}

unsafe extern "C" {
    fn fundravai_plan_open(
        log2_block: u8,
        table_end: u64,
        file_len: u64,
        records: *const Record,
        records_len: usize,
        listed: *const u64,
        listed_len: usize,
        scratch: *mut u64,
        scratch_len: usize,
        extents: *mut u64,
        extents_len: usize,
        starts: *mut u64,
        starts_len: usize,
        files: *mut u64,
        files_len: usize,
    ) -> Outcome;
    fn fundravai_plan_call_each(
        plan: Plan,
        extents: *mut u64,
        extents_len: usize,
        starts: *mut u64,
        starts_len: usize,
        files: *mut u64,
        files_len: usize,
        codes: *const u64,
        codes_len: usize,
        ids: *const u64,
        ids_len: usize,
        numbers: *const u64,
        numbers_len: usize,
        tag: u32,
        name: *const u8,
        name_len: usize,
    ) -> Each;
    fn fundravai_plan_locate_each(
        plan: Plan,
        starts: *const u64,
        starts_len: usize,
        files: *const u64,
        files_len: usize,
        ids: *const u64,
        ids_len: usize,
        positions: *const u64,
        positions_len: usize,
        n: u64,
        bytes: *mut u64,
        bytes_len: usize,
    ) -> u64;
}

/// The lists that the plan's holder lends.
pub struct Lists<'a> {
    pub extents: &'a mut [u64],
    pub starts: &'a mut [u64],
    pub files: &'a mut [u64],
}

/// What open is given, but for the lists.
pub struct Opening<'a> {
    pub log2_block: u8,
    pub table_end: u64,
    pub file_len: u64,
    pub records: &'a [Record],
    pub listed: &'a [u64],
}

pub fn open(c: &mut Container, o: Opening, scratch: &mut [u64]) -> Reply {
    let limits = (o.log2_block, o.table_end, o.file_len);
    header::open(c.object_mut(), limits, o.records, o.listed, scratch)
}

/// Opens with lists of any length; the plan is handed back where it is accepted.
pub fn open_with(o: Opening, scratch: &mut [u64], l: Lists, plan: &mut Plan) -> Reply {
    let outcome = unsafe {
        fundravai_plan_open(
            o.log2_block,
            o.table_end,
            o.file_len,
            o.records.as_ptr(),
            o.records.len(),
            o.listed.as_ptr(),
            o.listed.len(),
            scratch.as_mut_ptr(),
            scratch.len(),
            l.extents.as_mut_ptr(),
            l.extents.len(),
            l.starts.as_mut_ptr(),
            l.starts.len(),
            l.files.as_mut_ptr(),
            l.files.len(),
        )
    };
    let Outcome { kind, value, .. } = outcome;
    if kind != 2 {
        *plan = outcome.plan;
    }
    Reply { kind, value }
}

/// Calls in numbers: 0 is create, 1 grow, 2 publish, and 3 drop. A list for their codes, one for the
/// regions, and one for the lengths.
#[derive(Clone, Copy)]
pub struct Calls<'a> {
    pub codes: &'a [u64],
    pub ids: &'a [u64],
    pub numbers: &'a [u64],
    /// Of the regions that are created.
    pub tag: u32,
    pub name: &'a [u8],
}

/// Makes each call on the plan as the last one left it; answers how many were accepted, and what the last
/// one answered.
pub fn call_each(plan: &mut Plan, l: Lists, c: Calls) -> (u64, Reply) {
    let each = unsafe {
        fundravai_plan_call_each(
            *plan,
            l.extents.as_mut_ptr(),
            l.extents.len(),
            l.starts.as_mut_ptr(),
            l.starts.len(),
            l.files.as_mut_ptr(),
            l.files.len(),
            c.codes.as_ptr(),
            c.codes.len(),
            c.ids.as_ptr(),
            c.ids.len(),
            c.numbers.as_ptr(),
            c.numbers.len(),
            c.tag,
            c.name.as_ptr(),
            c.name.len(),
        )
    };
    *plan = each.plan;
    (each.accepted, each.last)
}

/// The positions to be located, each of a region.
#[derive(Clone, Copy)]
pub struct Positions<'a> {
    pub ids: &'a [u64],
    pub positions: &'a [u64],
}

/// Locates each position with this length; answers how many were located. Their bytes, or the numbers
/// of their refusals, go to `bytes`.
pub fn locate_each(
    plan: &Plan,
    (starts, files): (&[u64], &[u64]),
    p: Positions,
    n: u64,
    bytes: &mut [u64],
) -> u64 {
    unsafe {
        fundravai_plan_locate_each(
            *plan,
            starts.as_ptr(),
            starts.len(),
            files.as_ptr(),
            files.len(),
            p.ids.as_ptr(),
            p.ids.len(),
            p.positions.as_ptr(),
            p.positions.len(),
            n,
            bytes.as_mut_ptr(),
            bytes.len(),
        )
    }
}

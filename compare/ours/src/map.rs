//! The region map of crates/exports.

use crate::FlatAnswer;

unsafe extern "C" {
    fn fundravai_map_from_extents(
        extents: *const u64,
        extents_len: usize,
        len: u64,
        starts: *mut u64,
        starts_len: usize,
        files: *mut u64,
        files_len: usize,
        first: *mut u64,
        data: *mut u64,
        capacity: *mut u64,
        count: *mut usize,
        room: *mut usize,
    ) -> u64;
    fn fundravai_map_with_room(
        asked: usize,
        starts: *const u64,
        starts_len: usize,
        files: *const u64,
        files_len: usize,
        first: *mut u64,
        data: *mut u64,
        capacity: *mut u64,
        count: *mut usize,
        room: *mut usize,
    ) -> u64;
    fn fundravai_map_publish_len(
        len: u64,
        first: *mut u64,
        data: *mut u64,
        capacity: *mut u64,
        count: *mut usize,
        room: *mut usize,
    ) -> u64;
    fn fundravai_map_extend(
        file: u64,
        n: u64,
        starts: *mut u64,
        starts_len: usize,
        files: *mut u64,
        files_len: usize,
        first: *mut u64,
        data: *mut u64,
        capacity: *mut u64,
        count: *mut usize,
        room: *mut usize,
    ) -> u64;
    fn fundravai_map_locate(
        first: u64,
        data: u64,
        capacity: u64,
        count: usize,
        room: usize,
        starts: *const u64,
        starts_len: usize,
        files: *const u64,
        files_len: usize,
        pos: u64,
        n: u64,
    ) -> FlatAnswer;
    fn fundravai_locate_among(
        runs: *const Run,
        runs_len: usize,
        published: u64,
        pos: u64,
        n: u64,
    ) -> FlatAnswer;
    fn fundravai_locate_among_each(
        runs: *const Run,
        runs_len: usize,
        published: u64,
        positions: *const u64,
        positions_len: usize,
        n: u64,
        ats: *mut u64,
        ats_len: usize,
    ) -> u64;
    fn fundravai_map_runs(
        first: u64,
        data: u64,
        capacity: u64,
        count: usize,
        room: usize,
        starts: *const u64,
        starts_len: usize,
        files: *const u64,
        files_len: usize,
        out: *mut u64,
        out_len: usize,
    ) -> FlatAnswer;
    fn fundravai_map_locate_each(
        first: u64,
        data: u64,
        capacity: u64,
        count: usize,
        room: usize,
        starts: *const u64,
        starts_len: usize,
        files: *const u64,
        files_len: usize,
        positions: *const u64,
        positions_len: usize,
        n: u64,
        ats: *mut u64,
        ats_len: usize,
    ) -> u64;
    fn fundravai_map_extend_each(
        extents: *const u64,
        extents_len: usize,
        starts: *mut u64,
        starts_len: usize,
        files: *mut u64,
        files_len: usize,
        first: *mut u64,
        data: *mut u64,
        capacity: *mut u64,
        count: *mut usize,
        room: *mut usize,
    ) -> u64;
    fn fundravai_map_publish_each(
        lens: *const u64,
        lens_len: usize,
        first: *mut u64,
        data: *mut u64,
        capacity: *mut u64,
        count: *mut usize,
        room: *mut usize,
    ) -> u64;
}

/// A run: where it starts in the data and in the file, and its length.
#[derive(Clone, Copy, Debug, PartialEq)]
#[repr(C)]
pub struct Run {
    pub start: u64,
    pub file: u64,
    pub len: u64,
}

/// A map: the first run's file offset, the published length, the capacity, how many runs there are
/// after the first, and how many there may be. Those runs stand in two lent lists, `starts` and
/// `files`.
#[derive(Clone, Copy, Debug, PartialEq)]
pub struct Map {
    pub first: u64,
    pub data: u64,
    pub capacity: u64,
    pub count: usize,
    pub room: usize,
}

/// Answers the refusal, 0 if accepted, as do the next three.
pub fn from_extents(
    extents: &[u64],
    len: u64,
    starts: &mut [u64],
    files: &mut [u64],
    map: &mut Map,
) -> u64 {
    unsafe {
        fundravai_map_from_extents(
            extents.as_ptr(),
            extents.len(),
            len,
            starts.as_mut_ptr(),
            starts.len(),
            files.as_mut_ptr(),
            files.len(),
            &mut map.first,
            &mut map.data,
            &mut map.capacity,
            &mut map.count,
            &mut map.room,
        )
    }
}

pub fn with_room(asked: usize, starts: &[u64], files: &[u64], map: &mut Map) -> u64 {
    unsafe {
        fundravai_map_with_room(
            asked,
            starts.as_ptr(),
            starts.len(),
            files.as_ptr(),
            files.len(),
            &mut map.first,
            &mut map.data,
            &mut map.capacity,
            &mut map.count,
            &mut map.room,
        )
    }
}

pub fn publish_len(len: u64, map: &mut Map) -> u64 {
    unsafe {
        fundravai_map_publish_len(
            len,
            &mut map.first,
            &mut map.data,
            &mut map.capacity,
            &mut map.count,
            &mut map.room,
        )
    }
}

pub fn extend(file: u64, n: u64, starts: &mut [u64], files: &mut [u64], map: &mut Map) -> u64 {
    unsafe {
        fundravai_map_extend(
            file,
            n,
            starts.as_mut_ptr(),
            starts.len(),
            files.as_mut_ptr(),
            files.len(),
            &mut map.first,
            &mut map.data,
            &mut map.capacity,
            &mut map.count,
            &mut map.room,
        )
    }
}

/// Answers the refusal, 0 if accepted, and the byte.
pub fn locate(map: &Map, starts: &[u64], files: &[u64], pos: u64, n: u64) -> (u64, u64) {
    let r = unsafe {
        fundravai_map_locate(
            map.first,
            map.data,
            map.capacity,
            map.count,
            map.room,
            starts.as_ptr(),
            starts.len(),
            files.as_ptr(),
            files.len(),
            pos,
            n,
        )
    };
    (r.refusal, r.value)
}

/// The same among run records, of which the first `published` bytes are data.
pub fn locate_among(runs: &[Run], published: u64, pos: u64, n: u64) -> (u64, u64) {
    let r = unsafe { fundravai_locate_among(runs.as_ptr(), runs.len(), published, pos, n) };
    (r.refusal, r.value)
}

/// Answers the refusal, 0 if accepted, and how many runs were written.
pub fn runs(map: &Map, starts: &[u64], files: &[u64], out: &mut [u64]) -> (u64, u64) {
    let r = unsafe {
        fundravai_map_runs(
            map.first,
            map.data,
            map.capacity,
            map.count,
            map.room,
            starts.as_ptr(),
            starts.len(),
            files.as_ptr(),
            files.len(),
            out.as_mut_ptr(),
            out.len(),
        )
    };
    (r.refusal, r.value)
}

/// Answers how many positions were located, each with length n.
pub fn locate_each(
    map: &Map,
    starts: &[u64],
    files: &[u64],
    positions: &[u64],
    n: u64,
    ats: &mut [u64],
) -> u64 {
    unsafe {
        fundravai_map_locate_each(
            map.first,
            map.data,
            map.capacity,
            map.count,
            map.room,
            starts.as_ptr(),
            starts.len(),
            files.as_ptr(),
            files.len(),
            positions.as_ptr(),
            positions.len(),
            n,
            ats.as_mut_ptr(),
            ats.len(),
        )
    }
}

/// The same among run records.
pub fn locate_among_each(
    runs: &[Run],
    published: u64,
    positions: &[u64],
    n: u64,
    ats: &mut [u64],
) -> u64 {
    unsafe {
        fundravai_locate_among_each(
            runs.as_ptr(),
            runs.len(),
            published,
            positions.as_ptr(),
            positions.len(),
            n,
            ats.as_mut_ptr(),
            ats.len(),
        )
    }
}

/// Answers how many of the extensions were accepted.
pub fn extend_each(extents: &[u64], starts: &mut [u64], files: &mut [u64], map: &mut Map) -> u64 {
    unsafe {
        fundravai_map_extend_each(
            extents.as_ptr(),
            extents.len(),
            starts.as_mut_ptr(),
            starts.len(),
            files.as_mut_ptr(),
            files.len(),
            &mut map.first,
            &mut map.data,
            &mut map.capacity,
            &mut map.count,
            &mut map.room,
        )
    }
}

/// Answers how many of the lengths were accepted.
pub fn publish_each(lens: &[u64], map: &mut Map) -> u64 {
    unsafe {
        fundravai_map_publish_each(
            lens.as_ptr(),
            lens.len(),
            &mut map.first,
            &mut map.data,
            &mut map.capacity,
            &mut map.count,
            &mut map.room,
        )
    }
}

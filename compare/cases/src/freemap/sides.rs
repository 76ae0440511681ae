//! A free map by the Rust, by document 01's words over bytes and by ours.

use super::case::{Lists, Question};
use crate::flat::{flat, pairs};
use crate::lent::Lent;
use oracle::free::Free;
use ours::free::Map;

const MAX: u128 = u64::MAX as u128;

/// What stands in the numbers that `complement` is to fill.
const BEFORE: Map = Map {
    count: 7_000_001,
    tail: 7_000_002,
};

/// What a question is answered: the refusal and the place, the refusal and the free bytes.
#[derive(Debug, PartialEq)]
pub struct Read {
    pub fit: (u64, Option<u64>),
    pub bytes: (u64, u64),
}

/// What `complement` answers and leaves in the numbers and lists that it is lent, and what is read
/// from its map.
#[derive(Debug, PartialEq)]
pub struct Answer {
    pub refusal: u64,
    pub map: Map,
    pub tail: u64,
    pub ranges: Vec<u64>,
    pub gaps: Vec<u64>,
    pub reads: Vec<Read>,
}

/// A free map: its gaps, tail, how many bytes are free, and the place for each question that is not
/// refused.
#[derive(Debug, PartialEq)]
pub struct Found {
    pub gaps: Vec<(u64, u64)>,
    pub tail: u64,
    pub bytes: u64,
    pub fits: Vec<Option<u64>>,
}

/// Why `complement` is refused with 1.
pub const REASONS: [&str; 2] = ["an odd list of ranges", "too few places for gaps"];

/// Which reasons of `REASONS` apply.
pub fn reasons(lists: &Lists) -> [bool; 2] {
    let n = lists.ranges.len();
    [n % 2 == 1, lists.gaps.len() / 2 < n / 2 + 1]
}

/// Document 01's refusal of `first_fit`, where so many gaps are counted and so many slots lent.
pub fn fit_refusal(question: &Question, count: usize, slots: usize) -> u64 {
    match () {
        () if slots / 2 < count => 1,
        () if !question.align.is_power_of_two() => 2,
        () => 0,
    }
}

/// The place for each question whose align is a power of two.
fn fits(lists: &Lists, fit: impl Fn(&Question) -> Option<u64>) -> Vec<Option<u64>> {
    let asked = |q: &Question| {
        if q.align.is_power_of_two() {
            fit(q)
        } else {
            None
        }
    };
    lists.questions.iter().map(asked).collect()
}

/// The map by the Rust, and the ranges as it leaves them. It has no odd list and makes its own list
/// of gaps: it is asked where document 01 does not refuse.
pub fn by_rust(lists: &Lists) -> (Found, Vec<u64>) {
    let mut ranges = pairs(&lists.ranges);
    let free = Free::complement(lists.table_end, lists.len, &mut ranges);
    let found = Found {
        gaps: free.gaps(),
        tail: free.end(),
        bytes: free.free_bytes(),
        fits: fits(lists, |q| free.first_fit(q.len, q.align, q.skew)),
    };
    (found, flat(&ranges))
}

pub fn end((offset, len): (u64, u64)) -> u128 {
    (u128::from(offset) + u128::from(len)).min(MAX)
}

/// Whether document 01 skips a gap that starts there.
pub fn is_skipped(start: u64, q: &Question) -> bool {
    u128::from(start) + u128::from(q.skew) + u128::from(q.align - 1) > MAX
}

/// The least place from the start of a gap on, in whole numbers.
pub fn least(start: u64, q: &Question) -> u128 {
    let (start, align, skew) = (u128::from(start), u128::from(q.align), u128::from(q.skew));
    (start + skew).div_ceil(align) * align - skew
}

/// Whether a gap has a place, skipped or not.
pub fn has_place(gap: (u64, u64), q: &Question) -> bool {
    least(gap.0, q) + u128::from(q.len) <= end(gap)
}

/// Document 01's place in a gap, every byte tried.
fn place((start, len): (u64, u64), q: &Question) -> Option<u64> {
    let end = end((start, len));
    let aligned = |at: u64| (u128::from(at) + u128::from(q.skew)) % u128::from(q.align) == 0;
    let fits = |at: u64| u128::from(at) + u128::from(q.len) <= end;
    let mut places = start..=start + len;
    places.find(|&at| aligned(at) && fits(at) && !is_skipped(start, q))
}

/// The map by document 01's sentences, each byte of the container held against each range.
pub fn by_words(lists: &Lists) -> Found {
    let ranges = pairs(&lists.ranges);
    let has = |r: &(u64, u64), b: u64| r.0 <= b && u128::from(b) < end(*r);
    let free: Vec<u64> = (lists.table_end..lists.len)
        .filter(|&b| !ranges.iter().any(|r| has(r, b)))
        .collect();
    let run = |bytes: &[u64]| (bytes[0], bytes.len() as u64);
    let gaps: Vec<_> = free.chunk_by(|a, b| a + 1 == *b).map(run).collect();
    let ends = ranges.iter().filter(|r| r.1 > 0).map(|r| end(*r) as u64);
    Found {
        tail: ends.fold(lists.table_end, u64::max),
        bytes: free.len() as u64,
        fits: fits(lists, |q| gaps.iter().find_map(|g| place(*g, q))),
        gaps,
    }
}

/// The answer that is due where the map is this one, and `complement` leaves these ranges.
pub fn due(lists: &Lists, found: &Found, ranges: Vec<u64>) -> Answer {
    let count = found.gaps.len();
    let mut gaps = lists.gaps.clone();
    gaps[..2 * count].copy_from_slice(&flat(&found.gaps));
    let read = |(q, &place): (&Question, &Option<u64>)| {
        let slots = q.lent(count, gaps.len());
        let refusal = fit_refusal(q, count, slots);
        Read {
            fit: (refusal, if refusal == 0 { place } else { None }),
            bytes: if refusal == 1 {
                (1, 0)
            } else {
                (0, found.bytes)
            },
        }
    };
    Answer {
        refusal: 0,
        map: Map {
            count,
            tail: found.tail,
        },
        tail: found.tail,
        reads: lists.questions.iter().zip(&found.fits).map(read).collect(),
        ranges,
        gaps,
    }
}

/// The answer of a refused call, which changes nothing.
pub fn refused(lists: &Lists) -> Answer {
    Answer {
        refusal: 1,
        map: BEFORE,
        tail: BEFORE.tail,
        ranges: lists.ranges.clone(),
        gaps: lists.gaps.clone(),
        reads: Vec::new(),
    }
}

pub fn by_ours(lists: &Lists) -> Answer {
    let mut ranges = Lent::new(&lists.ranges);
    let mut gaps = Lent::new(&lists.gaps);
    let mut map = BEFORE;
    let refusal = ours::free::complement(
        lists.table_end,
        lists.len,
        ranges.list(),
        gaps.list(),
        &mut map,
    );
    let mut reads = Vec::new();
    if refusal == 0 {
        for q in &lists.questions {
            let slots = q.lent(map.count, lists.gaps.len());
            let lent = &gaps.list()[..slots];
            reads.push(Read {
                fit: ours::free::first_fit(&map, lent, q.len, q.align, q.skew),
                bytes: ours::free::free_bytes(&map, lent),
            });
        }
    }
    Answer {
        refusal,
        map,
        tail: ours::free::tail(&map),
        ranges: ranges.back(),
        gaps: gaps.back(),
        reads,
    }
}

//! A call by the Rust, by document 01's words and by ours.

use super::case::{Kind, Lists, NAME, NO_NAME};
use crate::flat::pairs;
use crate::lent::{Lent, Slot};
use oracle::settle::{Record, Regions, text};
use ours::settle::Records;

/// Document 01's limits on the records of a kind and on the ranges of both.
pub const MOST_RECORDS: usize = 1024;
pub const MOST_RANGES: usize = 65_536;

pub const OVERLAPPED: u8 = 1;
pub const RENAMED: u8 = 2;
pub const SUPERSEDED: u8 = 4;

/// What a call answers, the marks that it leaves, and whether all else is as it was: the lists that
/// it reads and the slots around all lists, and scratch too where it is refused.
#[derive(Debug, PartialEq)]
pub struct Answer {
    pub refusal: u64,
    pub marks: Vec<u8>,
    pub kept: bool,
}

/// Why a call is refused with 1.
pub const REASONS: [&str; 19] = [
    "too many usable records",
    "a short list of sequence numbers",
    "a short list of counts",
    "a short list of lengths of names",
    "a short list of names",
    "an odd list of ranges",
    "counts above the ranges",
    "too long a name",
    "too many unavailable records",
    "a short list of own sequence numbers",
    "a short list of own counts",
    "a short list of lengths of own names",
    "a short list of own names",
    "an odd list of own ranges",
    "counts above the own ranges",
    "too long an own name",
    "too many ranges",
    "short marks",
    "short scratch",
];

/// The sum of the counts of a kind's records.
fn ranges(kind: &Kind) -> u128 {
    let counts = kind.counts.iter().take(kind.count);
    counts.map(|&c| u128::from(c)).sum()
}

/// Which reasons apply to the records of a kind; a name's length may also be one of `others`.
fn reasons_of(kind: &Kind, others: &[u8]) -> [bool; 8] {
    let n = kind.count as u128;
    let short = |len: usize, each: u128| (len as u128) < each * n;
    let too_long = |len: &u8| usize::from(*len) > NAME && !others.contains(len);
    [
        kind.count > MOST_RECORDS,
        short(kind.seqs.len(), 1),
        short(kind.counts.len(), 1),
        short(kind.lens.len(), 1),
        short(kind.names.len(), NAME as u128),
        kind.ranges.len() % 2 == 1,
        ranges(kind) > kind.ranges.len() as u128 / 2,
        kind.lens.iter().take(kind.count).any(too_long),
    ]
}

/// Which reasons of `REASONS` apply.
pub fn reasons(lists: &Lists) -> Vec<bool> {
    let all = ranges(&lists.usable) + ranges(&lists.unavailable);
    let both = [
        all > MOST_RANGES as u128,
        lists.marks.len() < lists.usable.count,
        (lists.scratch.len() as u128) < 16 * all,
    ];
    [
        &reasons_of(&lists.usable, &[])[..],
        &reasons_of(&lists.unavailable, &[NO_NAME]),
        &both,
    ]
    .concat()
}

pub fn is_refused(lists: &Lists) -> bool {
    reasons(lists).contains(&true)
}

/// The records of lists that are not refused.
pub fn records(kind: &Kind) -> Vec<Record> {
    let mut rest = &kind.ranges[..];
    let mut record = |i: usize| {
        let (ranges, behind) = rest.split_at(2 * kind.counts[i] as usize);
        rest = behind;
        let len = kind.lens[i];
        let name = &kind.names[NAME * i..][..NAME];
        Record {
            seq: kind.seqs[i],
            name: (len != NO_NAME).then(|| text(&name[..len.into()])),
            ranges: pairs(ranges),
        }
    };
    (0..kind.count).map(&mut record).collect()
}

/// The answer that is due. The Rust has no limits and no lists that can be too short: it is asked
/// where document 01 does not refuse.
pub fn due(lists: &Lists) -> Answer {
    let mut marks = lists.marks.clone();
    let refused = is_refused(lists);
    if !refused {
        let [usable, unavailable] = [&lists.usable, &lists.unavailable].map(records);
        let settled = Regions::new(&usable, &unavailable).settle().marks();
        marks[..settled.len()].copy_from_slice(&settled);
    }
    Answer {
        refusal: refused.into(),
        marks,
        kept: true,
    }
}

/// Whether some byte is in both ranges: the later offset is one, if any is.
fn meet(a: (u64, u64), b: (u64, u64)) -> bool {
    let end = |r: (u64, u64)| (u128::from(r.0) + u128::from(r.1)).min(u64::MAX.into());
    let later = u128::from(a.0.max(b.0));
    later < end(a) && later < end(b)
}

/// Each range with the place and the number of its record.
fn ranges_of(list: &[Record]) -> Vec<(usize, u64, (u64, u64))> {
    let mut all = Vec::new();
    for (i, r) in list.iter().enumerate() {
        all.extend(r.ranges.iter().map(|&range| (i, r.seq, range)));
    }
    all
}

/// The marks by document 01's sentences, each range held against every other.
pub fn by_words(usable: &[Record], unavailable: &[Record]) -> Vec<u8> {
    let (all, own) = (ranges_of(usable), ranges_of(unavailable));
    let mut marks = vec![0; usable.len()];
    for (place, &(i, seq, range)) in all.iter().enumerate() {
        let mut others = all.iter().enumerate().filter(|other| other.0 != place);
        if others.any(|(_, other)| other.1 >= seq && meet(range, other.2)) {
            marks[i] |= OVERLAPPED;
        }
        if own.iter().any(|o| o.1 > seq && meet(range, o.2)) {
            marks[i] |= SUPERSEDED;
        }
    }
    for (record, mark) in usable.iter().zip(&mut marks) {
        let both = usable.iter().chain(unavailable);
        let namesakes = both.filter(|r| r.name == record.name);
        let seqs: Vec<u64> = namesakes.map(|r| r.seq).collect();
        let highest = *seqs.iter().max().expect("the record itself");
        let sharing = seqs.iter().filter(|&&seq| seq == highest).count();
        if highest > record.seq || sharing > 1 {
            *mark |= RENAMED;
        }
    }
    marks
}

/// A kind's lists, lent.
struct LentKind {
    seqs: Lent,
    counts: Lent,
    ranges: Lent,
    lens: Lent<u8>,
    names: Lent<u8>,
}

impl LentKind {
    /// Behind each list is a 0, so that a read past its end is not refused for what it finds.
    fn new(kind: &Kind) -> Self {
        Self {
            seqs: Lent::between(0, &kind.seqs),
            counts: Lent::between(0, &kind.counts),
            ranges: Lent::between(0, &kind.ranges),
            lens: Lent::between(0, &kind.lens),
            names: Lent::between(0, &kind.names),
        }
    }

    fn records(&mut self, count: usize) -> Records<'_> {
        Records {
            count,
            seqs: self.seqs.list(),
            counts: self.counts.list(),
            ranges: self.ranges.list(),
            lens: self.lens.list(),
            names: self.names.list(),
        }
    }

    fn holds(&self, kind: &Kind) -> bool {
        self.seqs.holds(&kind.seqs)
            && self.counts.holds(&kind.counts)
            && self.ranges.holds(&kind.ranges)
            && self.lens.holds(&kind.lens)
            && self.names.holds(&kind.names)
    }
}

/// Whether the slots around a list are as they were.
fn guarded<T: Slot>(lent: Lent<T>, list: &[T]) -> bool {
    lent.back().len() == list.len()
}

pub fn by_ours(lists: &Lists) -> Answer {
    let mut usable = LentKind::new(&lists.usable);
    let mut unavailable = LentKind::new(&lists.unavailable);
    let mut marks = Lent::new(&lists.marks);
    let mut scratch = Lent::new(&lists.scratch);
    let refusal = ours::settle::settle(
        usable.records(lists.usable.count),
        unavailable.records(lists.unavailable.count),
        marks.list(),
        scratch.list(),
    );
    Answer {
        refusal,
        marks: marks.back(),
        kept: usable.holds(&lists.usable)
            && unavailable.holds(&lists.unavailable)
            && (refusal == 0 || scratch.holds(&lists.scratch))
            && guarded(scratch, &lists.scratch),
    }
}

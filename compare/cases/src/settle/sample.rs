//! A stored sample of the Rust's answers.

use super::case::{
    COUNT, COUNTS, Case, Kind, LENS, Lists, MARKS, NAME, NAMES, RANGES, Record, SCRATCH, SEQS,
    UNAVAILABLE_SIZES,
};
use super::draw;
use super::sides::{Answer, SUPERSEDED, due};
use super::{MARKED, Tally};
use crate::flat::{list, words};
use crate::random::Random;
use crate::shrink::distance;

fn numbers(bytes: &[u8]) -> Vec<u64> {
    bytes.iter().map(|&b| b.into()).collect()
}

fn of_bytes(bytes: &[u8]) -> String {
    list(&numbers(bytes))
}

/// The five lists of a kind of records: sequence numbers, counts, ranges, lengths of names, names.
fn kind(word: &str, kind: &Kind) -> String {
    format!(
        "{word} {}, {}, {}, {}, {}; ",
        list(&kind.seqs),
        list(&kind.counts),
        list(&kind.ranges),
        of_bytes(&kind.lens),
        of_bytes(&kind.names),
    )
}

/// A line: how many usable records and how many unavailable ones, the length of scratch; five lists of
/// each (sequence numbers, counts, ranges, lengths of names, names), the list of marks before; the
/// refusal, the marks after. A list is its length and its numbers.
fn line(lists: &Lists, due: &Answer) -> String {
    format!(
        "settle 6: {} {} {}; {}{}marks {} = {}{}\n",
        lists.usable.count,
        lists.unavailable.count,
        lists.scratch.len(),
        kind("usable", &lists.usable),
        kind("unavailable", &lists.unavailable),
        of_bytes(&lists.marks),
        due.refusal,
        words(&numbers(&due.marks)),
    )
}

/// A record with a name of one byte, and zeros behind it.
fn record(usable: bool, seq: u64, name: u8, ranges: &[(u64, u64)]) -> Record {
    let mut bytes = [0; NAME];
    bytes[0] = name;
    Record {
        usable,
        seq,
        len: 1,
        name: bytes,
        ranges: ranges.to_vec(),
        count: None,
    }
}

/// Document 01's marks P7 to P9.
fn marks() -> [Vec<Record>; 3] {
    let two = |second: (u64, u64), seq: u64| {
        vec![
            record(true, 5, b'a', &[(0, 10)]),
            record(true, seq, b'b', &[second]),
        ]
    };
    [two((10, 5), 7), two((9, 5), 7), two((9, 5), 5)]
}

/// One record of a kind with one range, and every way to spoil it: a count or a list one too short,
/// an odd list, a count beside the ranges, too long a name; then lists that are longer than needed.
fn spoiled(usable: bool) -> Vec<Case> {
    let plain = record(usable, 3, b'a', &[(4, 2)]);
    let first = if usable { 0 } else { UNAVAILABLE_SIZES };
    let mut all = Vec::new();
    let mut with = |changes: &[(usize, u64)]| {
        let mut case = Case::new(std::slice::from_ref(&plain), 11);
        for &(k, size) in changes {
            case.sizes[k] = size;
        }
        all.push(case);
    };
    for k in [SEQS, COUNTS, RANGES, LENS, NAMES] {
        with(&[(first + k, 2)]);
    }
    with(&[(first + RANGES, 4)]);
    with(&[(first + RANGES, 1)]);
    with(&[(SCRATCH, 2)]);
    if usable {
        with(&[(MARKS, 2)]);
        with(&[(MARKS, 5), (SCRATCH, 5), (SEQS, 3)]);
    }
    for count in [0, 2, 1025, u64::MAX] {
        with(&[(first + COUNT, distance(count, 1))]);
    }
    with(&[(first + RANGES, 3), (first + LENS, 5), (first + COUNTS, 1)]);
    for len in [24, 25, 254, 255] {
        let mut named = plain.clone();
        named.len = len;
        all.push(Case::new(&[named], 12));
    }
    for count in [0, 2, 65_537, 1 << 60, u64::MAX] {
        let mut counted = plain.clone();
        counted.count = Some(count);
        all.push(Case::new(&[counted], 13));
    }
    // the sum of both counts is 1 but for 2^64
    let mut both = [plain.clone(), plain];
    both[0].count = Some(u64::MAX);
    both[1].count = Some(2);
    all.push(Case::new(&both, 14));
    all
}

/// A set of so many records of each kind, drawn until it is `wanted`.
fn drawn(
    usable: usize,
    unavailable: usize,
    n: usize,
    wanted: impl Fn(&Lists, &Answer) -> bool,
    random: &mut Random,
) -> Case {
    loop {
        let case = draw::set(usable, unavailable, n, random);
        let lists = case.lists();
        if wanted(&lists, &due(&lists)) {
            return case;
        }
    }
}

/// Lines `usable .. unavailable .. scratch .. marks .. = ..`, each as `line` says.
pub fn sample(random: &mut Random) -> String {
    let mut text = String::from(
        "-- footprint.rs of the engine: how many usable records, how many unavailable ones, the length of scratch; five lists of each (numbers, counts, ranges, lengths of names, names), marks before = refusal, marks after.
",
    );
    let mut tally = Tally::default();
    let mut tell = |case: &Case| {
        let lists = case.lists();
        let due = due(&lists);
        tally.count(&lists, &due);
        text += &line(&lists, &due);
    };
    tell(&Case::new(&[], 0));
    for set in marks() {
        tell(&Case::new(&set, 1));
    }
    for case in [true, false].into_iter().flat_map(spoiled) {
        tell(&case);
    }
    for i in 0..72 {
        let (usable, unavailable) = (1 + i % 3, i / 3 % 3);
        let n = usable + unavailable + random.below(8) as usize;
        // a short line; and every other one with a superseded record, where there can be one
        let wanted = |lists: &Lists, due: &Answer| {
            let superseded = due.marks.iter().any(|m| m & SUPERSEDED != 0);
            line(lists, due).len() < 107 + 85 * (usable + unavailable)
                && (superseded || unavailable == 0 || i % 2 == 1)
        };
        tell(&drawn(usable, unavailable, n, wanted, random));
    }
    for (usable, unavailable, n) in [(8, 4, 40), (6, 6, 24), (9, 3, 12)] {
        // each mark is set and unset
        let wanted = |_: &Lists, due: &Answer| {
            let with = |bit: u8| due.marks.iter().filter(|&m| m & bit != 0).count();
            MARKED.iter().all(|m| (1..usable).contains(&with(m.1)))
        };
        tell(&drawn(usable, unavailable, n, wanted, random));
    }
    for (marked, counts) in MARKED.iter().zip(tally.marks) {
        assert!(counts.iter().all(|&n| n > 25), "{marked:?}: {counts:?}");
    }
    assert!(text.len() <= 40 << 10, "{} bytes", text.len());
    text
}

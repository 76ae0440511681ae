//! A stored sample of the Rust's answers.

use super::draw::{Size, any, extend, extents, sweep};
use super::sequence::{
    EXTEND, EXTENTS, FROM_EXTENTS, LOCATE, LOCATE_AMONG, PUBLISH_LEN, Sequence, WITH_ROOM, plain,
};
use super::sides::{Answer, Call, Sides};
use super::{CALLS, Tally};
use crate::flat::words;
use crate::random::Random;
use std::convert::Infallible;

/// How many places the lists have, and what fills them.
const PLACES: usize = 64;
const FILLING: u64 = 7;

/// A line: the call's number, its two arguments, the places that its lists have, the list that it is
/// given or fills; its refusal and value, the map's numbers, the last run's slots.
fn line(call: &Call, places: usize, answer: &Answer, sides: &Sides) -> String {
    let runs: Vec<u64> = match call {
        Call::LocateAmong { .. } => sides
            .records()
            .iter()
            .flat_map(|r| [r.file, r.len])
            .collect(),
        Call::Extents { .. } => answer.out[..2 * answer.value as usize].to_vec(),
        _ => Vec::new(),
    };
    let (word, code, a, b, list) = match *call {
        Call::FromExtents { ref extents, len } => ("make", 1, len, 0, &extents[..]),
        Call::WithRoom { asked } => ("room", 2, asked as u64, 0, &[][..]),
        Call::PublishLen { len } => ("publish", 3, len, 0, &[][..]),
        Call::Extend { file, n } => ("extend", 4, file, n, &[][..]),
        Call::Locate { pos, n } => ("locate", 5, pos, n, &[][..]),
        Call::Extents { out } => ("runs", 6, out as u64, 0, &runs[..]),
        Call::LocateAmong { pos, n } => ("among", 7, pos, n, &runs[..]),
    };
    let map = &sides.due;
    let (start, file) = match map.count {
        0 => (0, 0),
        k => (sides.due_lists[0][k - 1], sides.due_lists[1][k - 1]),
    };
    format!(
        "{word} 5.{code}: {a} {b}, {places}, {}:{} = {} {}, {} {} {} {} {}, {start} {file}\n",
        list.len(),
        words(list),
        answer.refusal,
        answer.value,
        map.first,
        map.data,
        map.capacity,
        map.count,
        map.room,
    )
}

/// Document 01's marks P10 to P12.
fn marks() -> Sequence {
    let extents = [(100, 10), (110, 5), (200, 0), (115, 5), (300, 1)];
    let calls = [
        plain(FROM_EXTENTS, 0, 21),
        plain(EXTENTS, 0, 0),
        plain(LOCATE, 19, 1),
        plain(LOCATE, 20, 1),
        plain(LOCATE, 19, 2),
        plain(LOCATE_AMONG, 19, 1),
        plain(LOCATE_AMONG, 20, 1),
        plain(LOCATE_AMONG, 19, 2),
    ];
    Sequence::new(PLACES, 0, &extents, &calls)
}

/// Maps without extents: one is extended at byte 0, the other elsewhere.
fn without_extents() -> Sequence {
    let calls = [
        plain(FROM_EXTENTS, 0, 1),
        plain(FROM_EXTENTS, 0, 0),
        plain(LOCATE, 0, 0),
        plain(EXTEND, 0, 2),
        plain(LOCATE, 0, 0),
        plain(PUBLISH_LEN, 2, 0),
        plain(LOCATE, 1, 1),
        plain(LOCATE, 2, 0),
        plain(FROM_EXTENTS, 0, 0),
        plain(EXTEND, 5, 1),
        plain(WITH_ROOM, 1, 0),
        plain(EXTEND, 5, 3),
        plain(EXTEND, 0, 1),
        plain(EXTEND, 8, 1),
        plain(PUBLISH_LEN, 4, 0),
        plain(LOCATE, 0, 0),
        plain(LOCATE, 0, 4),
        plain(LOCATE, 4, 0),
        plain(EXTENTS, 0, 0),
    ];
    Sequence::new(PLACES, 0, &[], &calls)
}

/// A map of n extents, some calls on it, then all of its bytes published and some of them located.
fn drawn(i: usize, n: usize, size: Size, random: &mut Random) -> Sequence {
    // an odd list, too long a length, too much room, too great a sum, places too few by one
    let spoiled = [
        [FROM_EXTENTS, 1, 0, 0, 0, 0, 0],
        [FROM_EXTENTS, 0, 0, 1, 1, 0, 0],
        [WITH_ROOM, 3, 1, 0, 0, 0, 0],
        [EXTEND, 0, 0, 2, 1, 0, 0],
        [FROM_EXTENTS, 0, 0, 0, 0, 2, 2],
        [WITH_ROOM, 2, 1, 0, 0, 2, 2],
        [EXTEND, 1, 0, 0, 3, 2, 2],
        [LOCATE, 0, 0, 0, 0, 2, 2],
        [EXTENTS, 0, 2, 0, 0, 0, 0],
    ];
    let mut calls = vec![
        [FROM_EXTENTS, 0, 0, random.below(2), 0, 0, 0],
        [WITH_ROOM, 2, 1 + 2 * random.below(2), 0, 0, 0, 0],
    ];
    if n > 0 && n < 60 {
        calls.push(spoiled[i / 2 % 9]);
    }
    for _ in 0..2 {
        calls.push(extend(n as u64 + 2, size, random));
        calls.push(any(n as u64 + 2, size, random));
    }
    calls.push([PUBLISH_LEN, 2, 0, 0, 0, 0, 0]);
    let sweep = sweep(n + 2);
    for _ in 0..5 {
        calls.push(sweep[random.below(sweep.len() as u64) as usize]);
    }
    calls.push([EXTENTS, 0, 0, 0, 0, 0, 0]);
    Sequence::new(PLACES, 0, &extents(n, 3, size, random), &calls)
}

/// Lines `make`, `room`, `publish`, `extend`, `locate`, `runs` and `among`.
pub fn sample(random: &mut Random) -> String {
    let mut text = String::from(
        "-- regionmap.rs, calls on one map: call, two arguments, places of the lists, a list = refusal, value, the five numbers, the last run's start and file.
",
    );
    let mut tally = Tally::default();
    let mut sides = Sides::new([vec![FILLING; PLACES], vec![FILLING; PLACES]]);
    let mut tell = |sequence: &Sequence| {
        let Ok(()) = sequence.walk(&mut sides, |sides, call, places| {
            let answer = sides.ask_due(call, [places[0]; 2]);
            tally.count(call, answer.refusal);
            text += &line(call, places[0], &answer, sides);
            Ok::<(), Infallible>(())
        });
    };
    tell(&marks());
    tell(&without_extents());
    for i in 0..58 {
        let n = if i % 20 == 19 { 60 } else { i % 9 };
        let size = [Size::Giant, Size::Tiny, Size::Blocks, Size::Tiny][i % 4];
        tell(&drawn(i, n, size, random));
    }
    for i in 0..24 {
        let list = extents(1 + i % 4, 1, Size::Giant, random);
        let all = [FROM_EXTENTS, 0, 0, random.below(2), 0, 0, 0];
        tell(&Sequence::new(PLACES, 0, &list, &[all]));
    }
    for ((name, refusals), counts) in CALLS.iter().zip(&tally.0) {
        for &k in *refusals {
            assert!(counts[k] > 2, "{name} has {k} {} times", counts[k]);
        }
    }
    text
}

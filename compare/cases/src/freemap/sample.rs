//! A stored sample of the Rust's answers.

use super::case::{Case, Question, plain};
use super::draw::{self, Space};
use super::sides::Read;
use super::{Tally, answers};
use crate::flat::{list, words};
use crate::random::Random;
use ours::free::Map;

/// How many slots the program's list of gaps has.
const SLOTS: usize = 64;

/// `fit`, its three arguments, the slots lent; the refusal, whether there is a place, the place.
fn fit(q: &Question, read: &Read, slots: usize) -> String {
    let (refusal, place) = read.fit;
    let (some, at) = (u64::from(place.is_some()), place.unwrap_or(0));
    format!(
        "fit 7.2: {} {} {}, {slots}, 0: = {refusal} {some} {at}\n",
        q.len, q.align, q.skew,
    )
}

/// `bytes`, the slots lent; the refusal and the free bytes.
fn bytes(read: &Read, slots: usize) -> String {
    let (refusal, bytes) = read.bytes;
    format!("bytes 7.3: 0 0 0, {slots}, 0: = {refusal} {bytes} 0\n")
}

/// The lines of a case: `complement`, table end and length, the slots lent for gaps, the list of
/// ranges; the refusal, the map's two numbers, the ranges after, the gaps written. Then its questions.
fn told(case: &Case, map: &mut Map, tally: &mut Tally) -> String {
    let lists = case.lists();
    assert!(lists.gaps.len() <= SLOTS, "{} slots", lists.gaps.len());
    let due = answers(&lists).0;
    tally.count(&lists, &due);
    let mut written = 0;
    if due.refusal == 0 {
        *map = due.map;
        written = 2 * map.count;
    }
    let mut text = format!(
        "complement 7.1: {} {} 0, {}, {} = {} {} {},{},{}\n",
        lists.table_end,
        lists.len,
        lists.gaps.len(),
        list(&lists.ranges),
        due.refusal,
        map.count,
        map.tail,
        words(&due.ranges),
        words(&due.gaps[..written]),
    );
    let mut told = None;
    for (q, read) in lists.questions.iter().zip(&due.reads) {
        let slots = q.lent(map.count, lists.gaps.len());
        text += &fit(q, read, slots);
        // once for so many slots in a row
        if told.replace(slots) != Some(slots) {
            text += &bytes(read, slots);
        }
    }
    text
}

/// Document 01's marks P3 to P6.
fn marks() -> Case {
    let asked = [plain(64, 64, 0), plain(64, 64, 8), plain(601, 1, 0)];
    let ranges = [200, 50, 250, 0, 240, 60, 900, 500];
    Case::new(100, 1000, &ranges, &asked)
}

/// Containers at the ends, without a byte, and with lists that are too short, odd or longer than
/// needed.
fn chosen() -> Vec<Case> {
    let max = u64::MAX;
    let one = [
        plain(0, 1, 0),
        plain(1, 1, 0),
        plain(1, 3, 0),
        plain(1, 0, 0),
    ];
    // a skipped gap, and one just not skipped
    let last = [
        plain(1, 2, max),
        plain(1, 8, 7),
        plain(0, 1 << 63, 9),
        plain(3, 1, 8),
    ];
    let mut all = vec![
        Case::new(0, 0, &[], &one),
        Case::new(0, 1, &[], &one),
        Case::new(5, 3, &[1, 1], &one),
        Case::new(0, max, &[max, 3], &one),
        Case::new(max - 9, max, &[max - 4, 2, max, max], &last),
        Case::new(max - 8, max, &[max - 1, max], &last),
    ];
    for told in [2, 4, 1, 3, 5, 6] {
        all.push(Case::new(0, 9, &[6, 2, 1, 3], &one).with_places(told));
        all.push(Case::new(0, 9, &[6, 2, 1], &one).with_places(told));
    }
    for told in [2, 4, 1, 3, 5] {
        all.push(Case::new(
            0,
            9,
            &[6, 2, 1, 3],
            &[[told, 1, 2, 0], [told, 1, 5, 0]],
        ));
    }
    all
}

/// Lines `complement`, `fit` and `bytes`.
pub fn sample(random: &mut Random) -> String {
    let mut text = String::from(
        "-- footprint.rs of the engine, calls on one FreeMap: call, three arguments, slots lent for gaps, ranges = three numbers, the ranges after, the gaps written.
",
    );
    let mut tally = Tally::default();
    let mut map = Map { count: 0, tail: 0 };
    let mut tell = |case: &Case| text += &told(case, &mut map, &mut tally);
    tell(&marks());
    chosen().iter().for_each(&mut tell);
    for i in 0..72 {
        let space = [Space::Tiny, Space::Blocks, Space::Wide, Space::Top][i % 4];
        let n = if i % 20 == 19 { 20 } else { i % 7 };
        let ranges = draw::ranges(n, space, random);
        let case = draw::case(&ranges, space, 5, random);
        tell(&case.with_places([0, 0, 1, 3][i % 4]));
    }
    let counts = [
        &tally.alone[..],
        &tally.gaps,
        &tally.tails,
        &tally.fits,
        &tally.bytes,
    ];
    assert!(counts.concat().iter().all(|&n| n > 2), "{counts:?}");
    text
}

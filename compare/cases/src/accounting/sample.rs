//! A stored sample of the Rust's answers.

use super::call::{CALLS, Call};
use super::draw::{of_each, of_lists, posting, tags, usages};
use super::sequence::{
    ADD, ADD_USAGE, CLEAR_CAP, EMPTY, FITS, FROM_ENTRIES, FROM_USAGE, REMOVE, REMOVE_USAGE,
    RESERVE, SET_CAP, Sequence, Told, UNRESERVE, Usage, plain,
};
use super::sides::{Probe, Sides};
use super::{FITS as WAYS, REFUSALS, STOPS, Tally};
use crate::flat::{list, words};
use crate::random::Random;
use oracle::accounts::entry;
use ours::accounts::{MOST, Row};
use std::convert::Infallible;

const MAX: u64 = u64::MAX;

/// How many tags, and how many numbers of the third list, the program has room for.
const PLACES: usize = 128;

fn numbers(row: &Row) -> [u64; 6] {
    [
        row.tag.into(),
        row.capped.into(),
        row.logical,
        row.physical,
        row.reserved,
        row.cap,
    ]
}

/// A call as the sample has it: its word, its number, its four arguments, and its lists.
type Asked = (&'static str, [u64; 5], String);

fn lists_of<T: Copy + Into<u64>>(tags: &[u32], second: &[u64], third: &[T]) -> String {
    assert!(tags.len().max(third.len()) <= PLACES);
    let tags: Vec<u64> = tags.iter().map(|&t| t.into()).collect();
    let third: Vec<u64> = third.iter().map(|&n| n.into()).collect();
    format!("{}, {}, {}", list(&tags), list(second), list(&third))
}

fn no_lists() -> String {
    lists_of::<u64>(&[], &[], &[])
}

fn asked(call: &Call) -> Asked {
    let word = CALLS[call.kind()];
    let code = 1 + call.kind() as u64;
    let with = |tag: u32, a: u64, b: u64| (word, [code, tag.into(), a, b, 0], no_lists());
    match *call {
        Call::Empty => with(0, 0, 0),
        Call::FromUsage {
            ref tags,
            ref logical,
            ref physical,
        } => {
            let lists = lists_of(tags, logical, physical);
            (word, [code, 0, 0, 0, 0], lists)
        }
        Call::FromEntries {
            ref states,
            ref tags,
            ref data_sizes,
            block,
        } => {
            let lists = lists_of(tags, data_sizes, states);
            (word, [code, 0, 0, 0, block], lists)
        }
        Call::AddUsage {
            tag,
            logical,
            physical,
        }
        | Call::RemoveUsage {
            tag,
            logical,
            physical,
        } => with(tag, logical, physical),
        Call::Add {
            tag,
            data_size,
            block,
        }
        | Call::Remove {
            tag,
            data_size,
            block,
        } => with(tag, data_size, block),
        Call::Fits { tag, extra } => with(tag, extra, 0),
        Call::Reserve { tag, bytes } | Call::Unreserve { tag, bytes } => with(tag, bytes, 0),
        Call::SetCap { tag, cap } => with(tag, cap.is_some().into(), cap.unwrap_or(0)),
    }
}

/// The text so far, and the accounts.
struct Text<'a> {
    text: String,
    sides: Sides,
    tally: &'a mut Tally,
}

impl Text<'_> {
    /// A line: the call's number and four arguments, its lists; the refusal, whether it is so, a value;
    /// how many rows there then are, the bytes reserved, the row of the call's tag, all rows or none.
    fn line(&mut self, call: Asked, answer: [u64; 3], rows: &[Row]) {
        let (word, [code, tag, a, b, c], lists) = call;
        let due = self.sides.due;
        let known = due.rows[..due.count]
            .iter()
            .find(|r| u64::from(r.tag) == tag);
        let row = known.copied().unwrap_or(Row {
            tag: tag as u32,
            ..Row::default()
        });
        let [refusal, yes, value] = answer;
        let [t, capped, logical, physical, reserved, cap] = numbers(&row);
        self.text += &format!(
            "{word} 8.{code}: {tag} {a} {b} {c}, {lists} = {refusal} {yes} {value}, {} {}, {t} {capped} {logical} {physical} {reserved} {cap},{}\n",
            due.count,
            due.reserved,
            words(&rows.iter().flat_map(numbers).collect::<Vec<_>>()),
        );
    }

    /// The lines of a sequence, and one for all of its rows.
    fn tell(&mut self, sequence: &Sequence) {
        let mut lines = Vec::new();
        let Ok(()) = sequence.walk(&mut Sides::new(), |sides, call, probe| {
            sides.ask_due(call, probe);
            lines.push(call.clone());
            Ok::<(), Infallible>(())
        });
        // each sequence begins with no tags
        self.single(&Call::Empty);
        for call in &lines {
            self.single(call);
        }
        self.rows();
    }

    fn single(&mut self, call: &Call) {
        let probe = Probe {
            tags: [0; 2],
            place: 0,
        };
        let before = self.sides.due;
        let answer = self.sides.ask_due(call, probe);
        self.tally.count(call, &before, &answer);
        self.line(asked(call), [answer.refusal, answer.fits.into(), 0], &[]);
    }

    /// `rows`: all rows.
    fn rows(&mut self) {
        let due = self.sides.due;
        self.line(
            ("rows", [12, 0, 0, 0, 0], no_lists()),
            [0; 3],
            &due.rows[..due.count],
        );
    }

    /// `extent`, data size and block: whether there is a length, and the length.
    fn extent(&mut self, size: u64, block: u64) {
        let len = entry(true, 0, size).extent_len(block);
        let answer = [0, len.is_some().into(), len.unwrap_or(0)];
        self.line(("extent", [13, 0, size, block, 0], no_lists()), answer, &[]);
    }
}

/// Each call makes a row, in front, between and behind.
fn made() -> Vec<Sequence> {
    let last = u32::MAX;
    (ADD_USAGE..=CLEAR_CAP)
        .map(|call| {
            let told = [last, 0, 7].map(|tag| plain(call, tag, 5, 3));
            Sequence::new(&[], &told)
        })
        .collect()
}

/// Sums that stop, and questions around the cap.
fn chosen() -> Vec<Sequence> {
    let stops = [
        plain(ADD_USAGE, 4, MAX - 2, MAX - 1),
        plain(ADD_USAGE, 4, 2, 1),
        plain(ADD_USAGE, 4, 1, 1),
        plain(REMOVE_USAGE, 4, MAX, MAX - 1),
        plain(REMOVE_USAGE, 4, 1, 2),
        plain(RESERVE, 4, MAX - 1, 0),
        plain(RESERVE, 9, 2, 0),
        plain(RESERVE, 4, 2, 0),
        plain(UNRESERVE, 9, 3, 0),
        plain(UNRESERVE, 4, MAX, 0),
        plain(UNRESERVE, 4, 1, 0),
        // an entry that is too long: counted as 2^64 - 1, and not taken away again
        plain(ADD, 5, 1, 1 << 63),
        plain(REMOVE, 5, 1, 1 << 63),
        plain(ADD, 5, MAX - 2, 1),
        plain(ADD, 6, MAX - 1, 1),
        plain(REMOVE, 6, MAX - 2, 1),
        plain(REMOVE, 6, MAX - 1, 1),
    ];
    let mut questions = vec![
        plain(ADD_USAGE, 3, 10, 100),
        plain(RESERVE, 3, 20, 0),
        plain(FITS, 3, MAX, 0),
        plain(SET_CAP, 3, 130, 0),
        plain(FITS, 3, 9, 0),
        plain(FITS, 3, 10, 0),
        plain(FITS, 3, 11, 0),
        plain(FITS, 3, MAX - 120, 0),
        plain(FITS, 3, MAX - 119, 0),
        plain(FITS, 3, MAX, 0),
        plain(SET_CAP, 3, 119, 0),
        plain(FITS, 3, 0, 0),
        plain(SET_CAP, 3, MAX, 0),
    ];
    questions.extend([MAX - 121, MAX - 120, MAX - 119].map(|extra| plain(FITS, 3, extra, 0)));
    questions.push(plain(CLEAR_CAP, 3, 0, 0));
    questions.push(plain(FITS, 3, MAX - 119, 0));
    vec![Sequence::new(&[], &stops), Sequence::new(&[], &questions)]
}

/// Lists that are too short or too long, and all states.
fn lists() -> Vec<Sequence> {
    let usages: Vec<Usage> = [[5, 1, 1], [2, 7, 2], [5, MAX, 1], [2, 3, 1], [8, 8, 0]].to_vec();
    let mut told = Vec::new();
    for (second, third) in [(0, 0), (1, 0), (2, 0), (0, 1), (0, 2), (2, 1)] {
        for from in [FROM_USAGE, FROM_ENTRIES] {
            told.push([from, 0, second, third, 0, 2 * 4096, 0]);
        }
    }
    for fewer in [5, 4, 1] {
        for from in [FROM_USAGE, FROM_ENTRIES] {
            told.push([from, fewer, 0, 0, 0, 2 * 512, 0]);
        }
    }
    vec![Sequence::new(&usages, &told)]
}

/// As many tags as there may be; each call on one more, and on one of them.
fn full(random: &mut Random) -> Vec<Sequence> {
    let most = MOST as u64;
    let usages: Vec<Usage> = (0..=most)
        .map(|i| [(most - i) * 40, i, 1 + i % 2])
        .collect();
    let mut told: Vec<Told> = vec![
        [FROM_USAGE, 0, 0, 0, 0, 0, 0],
        [FROM_ENTRIES, 0, 0, 0, 0, 2 * 512, 0],
        [FROM_USAGE, 1, 0, 0, 0, 0, 0],
    ];
    for call in ADD_USAGE..=CLEAR_CAP {
        let other = 40 * random.below(most) as u32 + 7;
        told.push(plain(call, other, 5, 3));
        told.push(plain(call, 40 * (1 + random.below(most) as u32), 5, 3));
    }
    let ready: Vec<Usage> = usages.iter().map(|u| [u[0] + 1, u[1], 1]).collect();
    let entries = [[FROM_ENTRIES, 0, 0, 0, 0, 2 * 512, 0]];
    vec![
        Sequence::new(&usages, &told),
        Sequence::new(&ready, &entries),
    ]
}

fn drawn(i: usize, random: &mut Random) -> Sequence {
    let pool = tags(1 + i % 4, random);
    let mut told: Vec<Told> = Vec::new();
    if i % 3 == 0 {
        told.push(of_lists(random));
    }
    told.extend((0..8).map(|_| posting(&pool, random)));
    if i % 8 == 0 {
        told.push([EMPTY, 0, 0, 0, 0, 0, 0]);
    }
    let mut list = usages(i % 5, &pool, random);
    list.extend(of_each(&pool[..1], random));
    Sequence::new(&list, &told)
}

/// A line for each call; `rows` and `extent`.
pub fn sample(random: &mut Random) -> String {
    let mut tally = Tally::default();
    let mut told = Text {
        text: String::from(
            "-- space.rs, calls on one record of accounts: call, tag, three arguments, lists (tags and two more) = refusal, whether so, value; rows, reserved; the tag's row; all rows.
",
        ),
        sides: Sides::new(),
        tally: &mut tally,
    };
    for sequence in [made(), chosen(), lists(), full(random)].concat() {
        told.tell(&sequence);
    }
    for i in 0..30 {
        let sequence = drawn(i, random);
        told.tell(&sequence);
    }
    for (size, block) in [
        (0, 0),
        (1, 4096),
        (MAX, 0),
        (MAX, 1),
        (MAX - 2, 1),
        (MAX - 1, 1),
    ] {
        told.extent(size, block);
    }
    for (size, block) in [(0, 1 << 63), (1, MAX / 2), (2, MAX / 2), (0, MAX), (7, 3)] {
        told.extent(size, block);
    }
    let text = told.text;
    for (name, counts) in CALLS.iter().zip(&tally.refusals) {
        assert!(counts[0] > 2, "{name} is accepted {} times", counts[0]);
    }
    for (way, n) in WAYS.iter().zip(tally.fits) {
        assert!(n > 0, "fits is never answered {way}");
    }
    for (sum, n) in STOPS.iter().zip(tally.stops) {
        assert!(n > 1, "{sum} stops {n} times");
    }
    for (k, refusal) in REFUSALS.iter().enumerate().skip(1) {
        let n: usize = tally.refusals.iter().map(|r| r[k]).sum();
        assert!(n > 2, "{refusal} is given {n} times");
    }
    text
}

//! The free map: `complement`, `first_fit`, `free_bytes` and `tail`.

mod bench;
mod case;
mod draw;
mod every;
mod foreign;
mod listed;
mod sample;
mod sides;

pub use bench::{bench, growth};
pub use sample::sample;

use crate::random::Random;
use crate::shrink::brief;
use case::{Case, Lists};
use sides::{
    Answer, REASONS, by_ours, by_rust, by_words, due, has_place, is_skipped, reasons, refused,
};

/// What each case goes to.
type Check<'a> = &'a mut dyn FnMut(&Case) -> Result<(), String>;

/// How often each call was answered in each way.
#[derive(Default)]
struct Tally {
    complement: [usize; 2],
    alone: [usize; REASONS.len()],
    /// Maps with no gap, one gap, more gaps.
    gaps: [usize; 3],
    /// Tail at table end, above it, past the length.
    tails: [usize; 3],
    /// A place in the first gap, in another, none, none but in a gap that is skipped, 1, 2.
    fits: [usize; 6],
    bytes: [usize; 2],
    worded: usize,
}

const TAILS: [&str; 3] = ["at table end", "above it", "past the length"];

const FITS: [&str; 6] = [
    "in the first gap",
    "in a later gap",
    "none",
    "none but in a skipped gap",
    "refused with 1",
    "with 2",
];

impl Tally {
    fn count(&mut self, lists: &Lists, due: &Answer) {
        self.complement[due.refusal as usize] += 1;
        if due.refusal != 0 {
            if let [true, false] | [false, true] = reasons(lists) {
                self.alone[usize::from(reasons(lists)[1])] += 1;
            }
            return;
        }
        self.gaps[due.map.count.min(2)] += 1;
        let tail = match due.tail {
            t if t > lists.len.max(lists.table_end) => 2,
            t if t > lists.table_end => 1,
            _ => 0,
        };
        self.tails[tail] += 1;
        for (q, read) in lists.questions.iter().zip(&due.reads) {
            let gaps = due.gaps[..2 * due.map.count].chunks_exact(2);
            let skipped = |g: &[u64]| is_skipped(g[0], q) && has_place((g[0], g[1]), q);
            self.fits[match read.fit {
                (0, Some(at)) if at <= due.gaps[0] + due.gaps[1] => 0,
                (0, Some(_)) => 1,
                (0, None) if gaps.rev().any(skipped) => 3,
                (0, None) => 2,
                (refusal, _) => 3 + refusal as usize,
            }] += 1;
            self.bytes[read.bytes.0 as usize] += 1;
        }
    }

    /// Prints the table; an answer or a reason that never occurred is an error.
    fn all_seen(&self) -> Result<usize, String> {
        let rows: [(&str, &[&str], &[usize]); 6] = [
            ("complement by refusal", &["0", "1"], &self.complement),
            ("complement refused alone for", &REASONS, &self.alone),
            ("maps by gaps", &["none", "one", "more"], &self.gaps),
            ("maps by tail", &TAILS, &self.tails),
            ("first_fit by answer", &FITS, &self.fits),
            ("free_bytes by refusal", &["0", "1"], &self.bytes),
        ];
        for (calls, ways, counts) in rows {
            let pairs = || ways.iter().zip(counts);
            let seen: Vec<String> = pairs().map(|(way, n)| format!("{way}: {n}")).collect();
            println!("{calls}: {}", seen.join(", "));
            if let Some((way, _)) = pairs().find(|(_, n)| **n == 0) {
                return Err(format!("{calls}: never {way}"));
            }
        }
        println!(
            "maps held against each byte of the container: {}",
            self.worded
        );
        let calls = [&self.complement[..], &self.fits, &self.bytes];
        Ok(calls.into_iter().flatten().sum())
    }
}

/// Whether the container has so few bytes and ranges that each byte is held against each range.
fn is_small(lists: &Lists) -> bool {
    lists.len.saturating_sub(lists.table_end) <= 64 && lists.ranges.len() <= 64
}

/// The answer that is due, by the Rust and, for a small container, by document 01's words.
fn answers(lists: &Lists) -> (Answer, Option<Answer>) {
    if reasons(lists).contains(&true) {
        return (refused(lists), None);
    }
    let (found, ranges) = by_rust(lists);
    let words = is_small(lists).then(|| due(lists, &by_words(lists), ranges.clone()));
    (due(lists, &found, ranges), words)
}

/// Whether the Rust, document 01's words and ours agree.
fn agree(lists: &Lists, (rust, words): &(Answer, Option<Answer>)) -> bool {
    words.as_ref().is_none_or(|w| w == rust) && by_ours(lists) == *rust
}

fn differs(case: &Case) -> bool {
    let lists = case.lists();
    !agree(&lists, &answers(&lists))
}

/// Runs a case; an error names the smallest on which the sides differ.
fn check(case: &Case, tally: &mut Tally) -> Result<(), String> {
    let lists = case.lists();
    let found = answers(&lists);
    if agree(&lists, &found) {
        tally.count(&lists, &found.0);
        tally.worded += usize::from(found.1.is_some());
        return Ok(());
    }
    let lists = case.smallest(differs).lists();
    let call = brief(format!(
        "complement({}, {}, {:?}) with {} slots for gaps, then {:?}",
        lists.table_end,
        lists.len,
        lists.ranges,
        lists.gaps.len(),
        lists.questions,
    ));
    let (rust, words) = answers(&lists);
    let told = |answer: &Answer| brief(format!("{answer:?}"));
    if let Some(words) = words.filter(|w| *w != rust) {
        return Err(format!(
            "{call}: document 01 says {}, the Rust {}",
            told(&words),
            told(&rust)
        ));
    }
    Err(format!(
        "{call}: due is {}, ours gives {}",
        told(&rust),
        told(&by_ours(&lists))
    ))
}

/// How many cases ran, or the smallest input on which the sides differ.
pub fn compare(random: &mut Random) -> Result<usize, String> {
    let mut tally = Tally::default();
    let mut try_case = |case: &Case| check(case, &mut tally);
    every::compare(&mut try_case)?;
    draw::compare(random, &mut try_case)?;
    let others = listed::compare()? + foreign::compare(random)?;
    Ok(tally.all_seen()? + others)
}

//! The accounts: `Accounting`'s calls and readers, and `extent_len`.

mod bench;
mod call;
mod draw;
mod each;
mod every;
mod foreign;
mod listed;
mod sample;
mod sequence;
mod sides;
mod words;

pub use bench::bench;
pub use sample::sample;

use crate::random::Random;
use crate::shrink::brief;
use call::{CALLS, Call};
use ours::accounts::{Accounts, MOST, Row};
use sequence::Sequence;
use sides::Answer;

/// What each sequence goes to.
type Check<'a> = &'a mut dyn FnMut(&Sequence) -> Result<(), String>;

/// Document 01's refusals of a call, and 0.
const REFUSALS: [u64; 3] = [0, 1, 19];

/// How `fits` is answered.
const FITS: [&str; 6] = [
    "no cap",
    "below the cap",
    "at the cap",
    "one above",
    "further above",
    "past 2^64 - 1",
];

/// Where a row is made.
const MADE: [&str; 4] = ["first of all", "in front", "between", "behind"];

/// Which sum stops at 0 or at 2^64 - 1.
const STOPS: [&str; 8] = [
    "logical at 0",
    "logical at the top",
    "physical at 0",
    "physical at the top",
    "reserved at 0",
    "reserved at the top",
    "all reserved at 0",
    "all reserved at the top",
];

/// How often each call was answered in each way.
#[derive(Default)]
struct Tally {
    refusals: [[usize; REFUSALS.len()]; CALLS.len()],
    fits: [usize; FITS.len()],
    /// Where each call made a row.
    made: [[usize; MADE.len()]; CALLS.len()],
    stops: [usize; STOPS.len()],
    /// Sequences that come to all the tags there may be.
    full: usize,
}

/// Which of a call's sums stop, in the order of `STOPS`: logical, physical, reserved, all reserved.
fn stopped(call: &Call, before: &Row, accounts: &Accounts) -> [bool; STOPS.len()] {
    let less = |a: u64, b: u64| b > a;
    let more = |a: u64, b: u64| a.checked_add(b).is_none();
    let (logical, physical) = (before.logical, before.physical);
    let (row, all) = (before.reserved, accounts.reserved);
    let mut stops = [false; STOPS.len()];
    match *call {
        Call::AddUsage {
            logical: l,
            physical: p,
            ..
        } => (stops[1], stops[3]) = (more(logical, l), more(physical, p)),
        Call::RemoveUsage {
            logical: l,
            physical: p,
            ..
        } => (stops[0], stops[2]) = (less(logical, l), less(physical, p)),
        Call::Reserve { bytes, .. } => {
            (stops[5], stops[7]) = (more(row, bytes), more(all, bytes));
        }
        Call::Unreserve { bytes, .. } => {
            (stops[4], stops[6]) = (less(row, bytes), less(all, bytes));
        }
        _ => {}
    }
    stops
}

impl Tally {
    fn count(&mut self, call: &Call, before: &Accounts, answer: &Answer) {
        let k = call.kind();
        let refusal = REFUSALS.iter().position(|r| *r == answer.refusal);
        self.refusals[k][refusal.expect("a refusal of the accounts")] += 1;
        let (Some(tag), 0) = (call.tag(), answer.refusal) else {
            return;
        };
        let rows = &before.rows[..before.count];
        let place = rows.partition_point(|r| r.tag < tag);
        let known = rows.get(place).filter(|r| r.tag == tag);
        if known.is_none() {
            self.made[k][match place {
                _ if before.count == 0 => 0,
                0 => 1,
                p if p < before.count => 2,
                _ => 3,
            }] += 1;
        }
        let row = known.copied().unwrap_or_default();
        for (n, stops) in self.stops.iter_mut().zip(stopped(call, &row, before)) {
            *n += usize::from(stops);
        }
        self.full += usize::from(answer.accounts.count == MOST);
        if let Call::Fits { extra, .. } = *call {
            let whole = [row.physical, row.reserved, extra].map(u128::from);
            let (whole, cap): (u128, u128) = (whole.iter().sum(), row.cap.into());
            self.fits[match () {
                () if !row.capped => 0,
                () if whole < cap => 1,
                () if whole == cap => 2,
                () if whole > u128::from(u64::MAX) => 5,
                () if whole == cap + 1 => 3,
                () => 4,
            }] += 1;
        }
    }

    /// Prints the table; an answer that never occurred is an error.
    fn all_seen(&self) -> Result<usize, String> {
        let mut rows: Vec<(String, Vec<String>, Vec<usize>)> = Vec::new();
        let owned = |ways: &[&str]| ways.iter().map(|w| w.to_string()).collect();
        for (name, counts) in CALLS.iter().zip(&self.refusals) {
            let can: &[usize] = match *name {
                "empty" => &[0],
                "from_usage" | "from_entries" => &[0, 1, 2],
                _ => &[0, 2],
            };
            let ways = can.iter().map(|&k| REFUSALS[k].to_string()).collect();
            let counts = can.iter().map(|&k| counts[k]).collect();
            rows.push((format!("{name} by refusal"), ways, counts));
        }
        rows.push(("fits".into(), owned(&FITS), self.fits.to_vec()));
        for (name, counts) in CALLS.iter().zip(&self.made).skip(3) {
            rows.push((
                format!("rows made by {name}"),
                owned(&MADE),
                counts.to_vec(),
            ));
        }
        rows.push(("sums that stop".into(), owned(&STOPS), self.stops.to_vec()));
        rows.push(("calls".into(), vec!["with 96 tags".into()], vec![self.full]));
        for (calls, ways, counts) in &rows {
            let pairs = || ways.iter().zip(counts);
            let seen: Vec<String> = pairs().map(|(way, n)| format!("{way}: {n}")).collect();
            println!("{calls}: {}", seen.join(", "));
            if let Some((way, _)) = pairs().find(|(_, n)| **n == 0) {
                return Err(format!("{calls}: never {way}"));
            }
        }
        Ok(self.refusals.iter().flatten().sum())
    }
}

/// Runs a sequence; an error names the smallest on which two sides differ, its last calls if there are
/// many.
fn check(sequence: &Sequence, tally: &mut Tally) -> Result<(), String> {
    let tried = sequence.run(|call, before, answer| tally.count(call, before, answer));
    if tried.is_ok() {
        return Ok(());
    }
    let small = sequence.smallest();
    let mut calls = small.calls();
    let tried = small.run(|_, _, _| ());
    let (one, due, other, found) = *tried.expect_err("the smallest sequence shows the difference");
    let last = calls.split_off(calls.len().saturating_sub(8));
    let before = match calls.len() {
        0 => String::new(),
        n => format!("after {n} calls, "),
    };
    let told = |answer: &Answer| brief(format!("{answer:?}"));
    Err(format!(
        "{before}{}: {one} {}, {other} {}",
        brief(format!("{last:?}")),
        told(&due),
        told(&found)
    ))
}

/// How many cases ran, or the smallest input on which two sides differ.
pub fn compare(random: &mut Random) -> Result<usize, String> {
    let mut tally = Tally::default();
    let mut try_sequence = |s: &Sequence| check(s, &mut tally);
    every::compare(&mut try_sequence)?;
    draw::compare(random, &mut try_sequence)?;
    let lens = every::extent_lens(random)? + every::blanks(random)?;
    let others = listed::compare()? + each::compare(random)? + foreign::compare(random)?;
    Ok(tally.all_seen()? + lens + others)
}

//! The region map: `from_extents`, `with_room`, `publish_len`, `extend`, `locate`, and the reader of
//! its runs.

mod bench;
mod draw;
mod each;
mod every;
mod foreign;
mod listed;
mod records;
mod sample;
mod sequence;
mod sides;

pub use bench::{bench, growth};
pub use sample::sample;

use crate::random::Random;
use draw::Size;
use sequence::Sequence;
use sides::{Call, MOST};

/// How often each call had each refusal.
#[derive(Default)]
struct Tally([[usize; 25]; 7]);

const CALLS: [(&str, &[usize]); 7] = [
    ("from_extents", &[0, 1, 11, 12, 23]),
    ("with_room", &[0, 1]),
    ("publish_len", &[0, 23]),
    ("extend", &[0, 1, 11, 12, 19]),
    ("locate", &[0, 1, 23, 24]),
    ("extents", &[0, 1]),
    ("locate among the runs as records", &[0, 23, 24]),
];

impl Tally {
    fn count(&mut self, call: &Call, refusal: u64) {
        let k = match call {
            Call::FromExtents { .. } => 0,
            Call::WithRoom { .. } => 1,
            Call::PublishLen { .. } => 2,
            Call::Extend { .. } => 3,
            Call::Locate { .. } => 4,
            Call::Extents { .. } => 5,
            Call::LocateAmong { .. } => 6,
        };
        self.0[k][refusal as usize] += 1;
    }

    /// Prints the table; a call that was never answered in a way that it can be is an error.
    fn all_seen(&self) -> Result<usize, String> {
        for ((name, refusals), counts) in CALLS.iter().zip(&self.0) {
            let seen: Vec<String> = refusals
                .iter()
                .map(|&k| format!("{k}: {}", counts[k]))
                .collect();
            println!("{name} by refusal: {}", seen.join(", "));
            if let Some(k) = refusals.iter().find(|&&k| counts[k] == 0) {
                return Err(format!("no {name} was answered with {k}"));
            }
        }
        Ok(self.0.iter().flatten().sum())
    }
}

/// A text's beginning.
fn brief(text: String) -> String {
    match text.char_indices().nth(600) {
        Some((end, _)) => format!("{} ..", &text[..end]),
        None => text,
    }
}

/// Runs a sequence; an error names the smallest on which the two sides differ, its last calls if
/// there are many.
fn check(sequence: &Sequence, tally: &mut Tally) -> Result<(), String> {
    let tried = sequence.run(|call, _, refusal| tally.count(call, refusal));
    if tried.is_ok() {
        return Ok(());
    }
    let mut calls = Vec::new();
    let tried = sequence.smallest().run(|call, places, _| {
        calls.push(brief(format!("{call:?} in {places:?} places")));
    });
    let [due, ours] = *tried.expect_err("the smallest sequence shows the difference");
    let last = calls.split_off(calls.len().saturating_sub(20));
    let before = match calls.len() {
        0 => String::new(),
        n => format!("after {n} calls, "),
    };
    Err(format!(
        "{before}{}: due is {}, ours gives {}",
        last.join("; "),
        brief(format!("{due:?}")),
        brief(format!("{ours:?}"))
    ))
}

/// How many cases ran, or the smallest input on which the two differ.
pub fn compare(random: &mut Random) -> Result<usize, String> {
    let mut tally = Tally::default();
    let mut try_sequence = |s: &Sequence| check(s, &mut tally);
    every::made_at_the_limits(&mut try_sequence)?;
    every::extended_at_the_limits(&mut try_sequence)?;
    every::located_at_the_limits(&mut try_sequence)?;
    every::tiny(&mut try_sequence)?;
    for i in 0..300_000 {
        let n = random.below(9) as usize;
        let places = if i % 64 == 0 { MOST + 6 } else { 40 };
        let (size, calls) = (Size::drawn(random), 4 + random.below(20));
        let mut sequence = draw::sequence(n, size, calls, places, random);
        if i % 64 == 1 {
            sequence.then(&draw::sweep(n + 4));
        }
        try_sequence(&sequence)?;
    }
    for i in 0..2000 {
        let n = 59 + i % 3;
        let places = if i % 8 == 0 { MOST + 6 } else { 80 };
        let mut sequence = draw::sequence(n, Size::drawn(random), 40, places, random);
        if i % 8 == 1 {
            sequence.then(&draw::sweep(n + 4));
        }
        try_sequence(&sequence)?;
    }
    for i in 0..200 {
        let any = random.below(MOST as u64) as usize;
        let n = [MOST - 1, MOST, MOST + 1, any][i % 4];
        let size = [Size::Tiny, Size::Blocks, Size::Any][i % 3];
        let mut sequence = draw::sequence(n, size, 60, MOST + 6, random);
        if i % 25 == 0 {
            sequence.then(&draw::sweep(n + 4));
        }
        try_sequence(&sequence)?;
    }
    for mut sequence in [draw::filled(random), draw::of_runs(MOST, random)] {
        sequence.then(&draw::sweep(MOST + 1));
        try_sequence(&sequence)?;
    }
    let others = listed::compare()? + each::compare(random)? + foreign::compare(random)?;
    let among = records::compare(random)?;
    Ok(tally.all_seen()? + others + among)
}

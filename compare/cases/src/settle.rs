//! `settle`.

mod bench;
mod case;
mod draw;
mod every;
mod limits;
mod listed;
mod sample;
mod shaped;
mod shapes;
mod sides;

pub use bench::{bench, growth};
pub use sample::sample;

use crate::random::Random;
use crate::shrink::brief;
use case::{Case, Lists};
use sides::{
    Answer, MOST_RANGES, MOST_RECORDS, OVERLAPPED, REASONS, RENAMED, SUPERSEDED, by_ours, by_words,
    due, reasons, records,
};

/// What each case goes to.
type Check<'a> = &'a mut dyn FnMut(&Case) -> Result<(), String>;

/// How many calls were accepted and refused, how many for each reason alone, and how many usable
/// records had each mark and had it not.
#[derive(Default)]
struct Tally {
    answered: [usize; 2],
    alone: [usize; REASONS.len()],
    marks: [[usize; 2]; 3],
}

const MARKED: [(&str, u8); 3] = [
    ("overlapped", OVERLAPPED),
    ("renamed", RENAMED),
    ("superseded", SUPERSEDED),
];

impl Tally {
    fn count(&mut self, lists: &Lists, due: &Answer) {
        self.answered[due.refusal as usize] += 1;
        if due.refusal == 0 {
            for mark in &due.marks[..lists.usable.count] {
                for (counts, (_, bit)) in self.marks.iter_mut().zip(MARKED) {
                    counts[usize::from(mark & bit != 0)] += 1;
                }
            }
            return;
        }
        let reasons = reasons(lists);
        let mut applying = (0..REASONS.len()).filter(|&k| reasons[k]);
        if let (Some(k), None) = (applying.next(), applying.next()) {
            self.alone[k] += 1;
        }
    }

    /// Prints the table; an answer, a reason or a mark that never occurred is an error.
    fn all_seen(&self) -> Result<usize, String> {
        let [accepted, refused] = self.answered;
        println!("settle by refusal: 0: {accepted}, 1: {refused}");
        for ((name, _), [without, with]) in MARKED.iter().zip(self.marks) {
            println!("usable records {name}: {with}, not: {without}");
            if with == 0 || without == 0 {
                return Err(format!("no usable record was {name}, or all were"));
            }
        }
        match REASONS.iter().zip(self.alone).find(|(_, n)| *n == 0) {
            Some((reason, _)) => Err(format!("no call was refused for {reason} alone")),
            None => Ok(accepted + refused),
        }
    }
}

/// The marks by document 01's words, where the call is accepted and small.
fn worded(lists: &Lists, due: &Answer) -> Option<Vec<u8>> {
    let numbers = lists.usable.ranges.len() + lists.unavailable.ranges.len();
    let few = lists.usable.count + lists.unavailable.count <= 40 && numbers <= 160;
    (due.refusal == 0 && few).then(|| {
        let mut marks = lists.marks.clone();
        let words = by_words(&records(&lists.usable), &records(&lists.unavailable));
        marks[..words.len()].copy_from_slice(&words);
        marks
    })
}

/// Whether the Rust, document 01's words and ours agree.
fn agree(lists: &Lists, due: &Answer) -> bool {
    by_ours(lists) == *due && worded(lists, due).is_none_or(|marks| marks == due.marks)
}

fn differs(case: &Case) -> bool {
    let lists = case.lists();
    !agree(&lists, &due(&lists))
}

/// Runs a case; an error names the smallest on which the two sides differ.
fn check(case: &Case, tally: &mut Tally) -> Result<(), String> {
    let lists = case.lists();
    let answer = due(&lists);
    if agree(&lists, &answer) {
        tally.count(&lists, &answer);
        return Ok(());
    }
    let lists = case.smallest(differs).lists();
    let due = due(&lists);
    let call = format!(
        "settle({:?}, {:?}, marks {:?}, {} numbers of scratch)",
        lists.usable,
        lists.unavailable,
        lists.marks,
        lists.scratch.len()
    );
    let call = brief(call);
    if let Some(marks) = worded(&lists, &due).filter(|marks| *marks != due.marks) {
        return Err(format!(
            "{call}: document 01 says {marks:?}, the Rust {:?}",
            due.marks
        ));
    }
    Err(format!(
        "{call}: due is {}, ours gives {}",
        brief(format!("{due:?}")),
        brief(format!("{:?}", by_ours(&lists)))
    ))
}

/// How many cases ran, or the smallest input on which the two differ.
pub fn compare(random: &mut Random) -> Result<usize, String> {
    let mut tally = Tally::default();
    let mut try_case = |case: &Case| check(case, &mut tally);
    every::compare(&mut try_case)?;
    for i in 0..400_000 {
        let most = if i % 16 == 0 { 40 } else { 10 };
        let [usable, unavailable, n] = [0, 1, 2].map(|_| random.below(most) as usize);
        let mut case = draw::set(usable, unavailable, n, random);
        if i % 4 == 0 {
            draw::resize(&mut case, random);
        }
        try_case(&case)?;
    }
    limits::compare(random, &mut try_case)?;
    shaped::compare(random, &mut try_case)?;
    for i in 0..3000 {
        let [usable, unavailable] = [0, 1].map(|_| random.below(70) as usize);
        let mut case = draw::large(usable, unavailable, random.below(300) as usize, random);
        if i % 4 == 0 {
            draw::resize(&mut case, random);
        }
        try_case(&case)?;
    }
    for i in 0..120 {
        let most = MOST_RECORDS as u64 + 1;
        let [usable, unavailable] = [0, 1].map(|_| random.below(most) as usize);
        let any = random.sized() as usize % (MOST_RANGES + 1);
        let n = [MOST_RANGES, MOST_RANGES - 1, 1 << (i % 17), any][i % 4];
        try_case(&draw::large(usable, unavailable, n, random))?;
    }
    let listed = listed::compare()?;
    Ok(tally.all_seen()? + listed)
}

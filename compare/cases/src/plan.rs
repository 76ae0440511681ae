//! The plan: open, create, grow, publish, drop, cap and locate, and all that is seen of it after each
//! call. The model, written from document 01, is held against a plan over the Rust's own parts, and
//! against ours.

mod bench;
pub mod call;
mod draw;
mod each;
mod inplace;
mod limits;
pub mod listing;
mod many;
mod mistake;
mod model;
mod ours;
mod planted;
mod records;
mod sample;
mod sequence;
mod side;
mod spoil;
mod tally;

pub use bench::{bench, growth};
pub use sample::sample;

use crate::random::Random;
use crate::shrink::brief;
use inplace::InPlace;
use model::Model;
use ours::Ours;
use sequence::Case;
use side::{Maker, Pair, Side};
use tally::Tally;

/// What each case goes to.
type Check<'a> = &'a mut dyn FnMut(&Case) -> Result<(), String>;

fn model() -> Box<dyn Side> {
    Box::new(Model::new(None))
}

fn in_place() -> Box<dyn Side> {
    Box::new(InPlace::new())
}

fn ours() -> Box<dyn Side> {
    Box::new(Ours::new())
}

/// The sides that are held against the model.
const OTHERS: [(&str, Maker<'static>); 2] = [("the plan in place", &in_place), ("ours", &ours)];

fn pair(other: (&'static str, Maker<'static>)) -> Pair<'static> {
    Pair {
        due: ("the model", &model),
        other,
    }
}

/// Runs a case; an error names the smallest on which the two differ, its last calls if there are many.
fn check(case: &Case, pair: Pair, tally: &mut Tally) -> Result<(), String> {
    if case.run(pair, |step| tally.count(step)).is_ok() {
        return Ok(());
    }
    let small = case.smallest(pair);
    let difference = small.run(pair, |_| ());
    let difference = difference.expect_err("the smallest case shows the difference");
    let mut calls = small.calls();
    calls.truncate(difference.calls);
    let last = calls.split_off(calls.len().saturating_sub(12));
    let before = match calls.len() {
        0 => String::new(),
        n => format!("{n} calls, then "),
    };
    let [due, other] = difference.texts.map(brief);
    Err(format!(
        "{}, {before}{}: {} has {due}, {} {other}",
        brief(format!("{:?}", small.opening.opening())),
        brief(format!("{last:?}")),
        pair.due.0,
        pair.other.0
    ))
}

/// How many calls and lines were compared, or the smallest input on which two sides differ.
pub fn compare(random: &mut Random) -> Result<usize, String> {
    let seed = random.next();
    let mut compared = 0;
    for other in OTHERS {
        let mut tally = Tally::default();
        let mut try_case = |case: &Case| check(case, pair(other), &mut tally);
        let random = &mut Random::new(seed);
        limits::compare(random, &mut try_case)?;
        draw::compare(random, &mut try_case)?;
        println!("the model against {}", other.0);
        compared += tally.all_seen()?;
    }
    let mut sides = vec![("the model", &model as Maker)];
    sides.extend(OTHERS);
    compared += listing::compare(&sides)?;
    let each = each::compare(&mut Random::new(seed))?;
    println!("ours one after another: {each} calls as the single ones");
    compared += each;
    planted::compare(seed)?;
    Ok(compared)
}

/// What the listing program writes if the model is its plan.
pub fn listing(input: &[u8]) -> String {
    listing::answers(&mut *model(), input)
}

/// The model's answer to each line it is given, one after another.
pub fn model_lines() -> impl FnMut(&[u8], &mut String) {
    let (mut side, mut opened) = (model(), false);
    move |line, text| listing::answer(&mut *side, &mut opened, line, text)
}

/// Lists of lines that are answered beforehand.
pub fn answered() -> Result<Vec<listing::Answered>, String> {
    listing::answered()
}

/// The same of the plan in place.
pub fn listing_in_place(input: &[u8]) -> String {
    listing::answers(&mut *in_place(), input)
}

/// The calls that the lines of an input are.
pub fn calls_in(input: &[u8]) -> Vec<call::Call> {
    listing::calls(input)
}

/// Makes calls on a plan in place that the first line opens; None if it does not.
pub fn opened_in_place(input: &[u8]) -> Option<impl FnMut(&[call::Call]) -> u64> {
    let mut side = in_place();
    let opened = listing::open_first(&mut *side, input);
    opened.then_some(move |calls: &[call::Call]| {
        let accepted = calls
            .iter()
            .map(|c| u64::from(side.ask(c, call::Places::ALL).accepted()));
        accepted.sum()
    })
}

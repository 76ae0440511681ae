//! Whether the drivers find each planted mistake.

use super::mistake::MISTAKES;
use super::model::Model;
use super::sequence::Case;
use super::side::{Pair, Side};
use super::{draw, limits};
use crate::random::Random;

/// An error names the mistakes that are not found.
pub fn compare(seed: u64) -> Result<(), String> {
    let mut unseen = Vec::new();
    let mut cases = 0;
    for &mistake in MISTAKES {
        let due = || Box::new(Model::new(None)) as Box<dyn Side>;
        let wrong = || Box::new(Model::new(Some(mistake))) as Box<dyn Side>;
        let pair = Pair {
            due: ("the model", &due),
            other: ("the mistaken model", &wrong),
        };
        let mut check = |case: &Case| {
            cases += 1;
            case.run(pair, |_| ()).map_err(|_| String::new())
        };
        let random = &mut Random::new(seed);
        let found = limits::compare(random, &mut check)
            .and_then(|()| draw::compare(random, &mut check))
            .is_err();
        if !found {
            unseen.push(mistake);
        }
    }
    let n = MISTAKES.len();
    println!(
        "planted mistakes: {} of {n} found, in {cases} cases",
        n - unseen.len()
    );
    match unseen.is_empty() {
        true => Ok(()),
        false => Err(format!("planted mistakes that are not found: {unseen:?}")),
    }
}

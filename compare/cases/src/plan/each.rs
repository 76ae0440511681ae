//! The calls that are there for the benchmark do what the single ones do.

use super::call::{Call, Places};
use super::draw::{Drawing, empty};
use super::many::Many;
use super::ours::Ours;
use super::records::drawn;
use super::sequence::Told;
use super::side::Side;
use crate::random::Random;

/// A call that is there in numbers, mostly on a region that is there.
fn drawn_call(plan: &Drawing, random: &mut Random) -> Call {
    let (id, most) = match plan.region(random) {
        Some((r, _)) if random.below(6) > 0 => (r.number, r.entry.capacity / 4096 + 2),
        _ => (random.below(9), 3),
    };
    let len = 4096 * random.below(most);
    match random.below(8) {
        0 | 1 => Call::Create {
            id: random.below(9),
            tag: 5,
            name: b"one".to_vec(),
        },
        2..5 => Call::Grow { id },
        5 | 6 => Call::Publish { id, len },
        _ => Call::Drop { id },
    }
}

/// How many of them single calls accept.
fn singly(side: &mut Ours, calls: &[Call]) -> u64 {
    let ask = |call: &Call| side.ask(call, Places::ALL).accepted();
    calls.iter().map(ask).filter(|accepted| *accepted).count() as u64
}

fn opened(opening: &Told) -> Option<Ours> {
    let mut side = Ours::new();
    side.open(&opening.opening()).accepted().then_some(side)
}

/// How many calls were made, or the first list on which the two differ.
pub fn compare(random: &mut Random) -> Result<usize, String> {
    let mut made = 0;
    for i in 0..2000 {
        let opening = match i % 2 {
            0 => empty(random),
            _ => drawn(1 + random.below(6) as usize, 8, random),
        };
        let (Some(mut each), Some(mut single)) = (opened(&opening), opened(&opening)) else {
            continue;
        };
        let plan = Drawing::new(opening);
        let calls: Vec<Call> = (0..random.below(24))
            .map(|_| drawn_call(&plan, random))
            .collect();
        let locates = (0..random.below(24)).map(|_| Call::Locate {
            id: random.below(9),
            pos: random.below(1 << 14),
            n: 1,
        });
        for calls in [calls, locates.collect()] {
            let many = Many::new(calls);
            let found = each.many(&many);
            let due = singly(&mut single, &many.calls);
            let tags = [5].into();
            if found != due || !each.same_lists(&single) || each.view(&tags) != single.view(&tags) {
                return Err(format!(
                    "{:?} one after another: {found} accepted, of single calls {due}",
                    many.calls
                ));
            }
            made += many.calls.len();
        }
    }
    Ok(made)
}

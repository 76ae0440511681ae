//! Maps that no call handed back, with any list: each reader ends, changes nothing and answers by
//! its definition.

use super::case::Question;
use super::sides::{fit_refusal, has_place, is_skipped, least};
use crate::flat::pairs;
use crate::lent::Lent;
use crate::random::Random;
use ours::free::Map;

/// What is due of such a map: the refusal and the place, the refusal and the sum.
fn due(map: &Map, list: &[u64], q: &Question) -> [(u64, Option<u64>); 2] {
    let gaps = pairs(list).into_iter().take(map.count);
    let fit = match fit_refusal(q, map.count, list.len()) {
        0 => {
            let mut gaps = gaps.clone();
            let first = gaps.find(|&g| !is_skipped(g.0, q) && has_place(g, q));
            (0, first.map(|g| least(g.0, q) as u64))
        }
        refusal => (refusal, None),
    };
    let bytes = match list.len() / 2 < map.count {
        true => (1, Some(0)),
        false => (
            0,
            Some(gaps.fold(0, |sum, g| u64::saturating_add(sum, g.1))),
        ),
    };
    [fit, bytes]
}

fn ours(map: &Map, list: &[u64], q: &Question) -> [(u64, Option<u64>); 2] {
    let (refusal, bytes) = ours::free::free_bytes(map, list);
    [
        ours::free::first_fit(map, list, q.len, q.align, q.skew),
        (refusal, Some(bytes)),
    ]
}

/// How many calls were made, or one that is answered otherwise.
pub fn compare(random: &mut Random) -> Result<usize, String> {
    let rounds = 2_000_000;
    for _ in 0..rounds {
        let list: Vec<u64> = (0..random.below(14)).map(|_| random.number()).collect();
        let count = match random.below(4) {
            0 => random.number() as usize,
            _ => random.below(list.len() as u64 / 2 + 1) as usize,
        };
        let map = Map {
            count,
            tail: random.number(),
        };
        let align = match random.below(8) {
            0 => random.number(),
            _ => 1 << random.below(64).min(random.below(64)),
        };
        let q = Question::new(random.number(), align, random.number());
        let mut lent = Lent::new(&list);
        let (due, ours) = (due(&map, &list, &q), ours(&map, lent.list(), &q));
        if due != ours || ours::free::tail(&map) != map.tail || !lent.holds(&list) {
            return Err(format!(
                "{map:?} with {list:?}, {q:?}: due is {due:?}, ours gives {ours:?}"
            ));
        }
    }
    Ok(3 * rounds)
}

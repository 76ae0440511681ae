//! Random sequences of calls.

use super::Check;
use super::sequence::{
    ADD, ADD_USAGE, BASES, CLEAR_CAP, EMPTY, FITS, FROM_ENTRIES, FROM_USAGE, REMOVE, REMOVE_USAGE,
    RESERVE, SET_CAP, Sequence, Told, UNRESERVE, Usage,
};
use crate::random::Random;
use ours::accounts::MOST;

const MAX: u64 = u64::MAX;

const LAST_TAG: u64 = u32::MAX as u64;

/// So many different tags: dense at one end, dense around somewhere, at both ends, or anywhere.
pub fn tags(n: usize, random: &mut Random) -> Vec<u64> {
    let many = n as u64;
    let way = random.below(5);
    let start = random.next() % (LAST_TAG - many);
    let spread = (LAST_TAG / many.max(1)).max(1);
    let tag = |i: u64| match way {
        0 => i,
        1 => LAST_TAG - i,
        2 if i % 2 == 0 => i / 2,
        2 => LAST_TAG - i / 2,
        3 => start + i,
        _ => (i + 1) * spread - 1,
    };
    let mut list: Vec<u64> = (0..many).map(tag).collect();
    for i in (1..list.len()).rev() {
        list.swap(i, random.below(i as u64 + 1) as usize);
    }
    list
}

/// A distance, mostly none, else a small one, or any.
fn near(random: &mut Random) -> u64 {
    match random.below(8) {
        0..4 => 0,
        4..7 => random.below(4),
        _ => random.sized(),
    }
}

fn one(list: &[u64], random: &mut Random) -> u64 {
    list[random.below(list.len() as u64) as usize]
}

/// A call on one of these tags, or seldom on another.
pub fn posting(pool: &[u64], random: &mut Random) -> Told {
    let tag = match random.below(24) {
        0 => random.next() & LAST_TAG,
        _ => one(pool, random),
    };
    let call = match random.below(20) {
        0..4 => ADD_USAGE,
        4..6 => REMOVE_USAGE,
        6 => ADD,
        7 => REMOVE,
        8..13 => FITS,
        13..15 => RESERVE,
        15 => UNRESERVE,
        16..19 => SET_CAP,
        _ => CLEAR_CAP,
    };
    let small = random.below(3) == 0;
    let mut amount = || match small {
        true => (0, 2 * random.below(1000)),
        false => (random.below(BASES), near(random)),
    };
    let (first, second) = (amount(), amount());
    let read = match random.below(3) {
        0 => one(pool, random),
        1 => random.below(MOST as u64 + 3),
        _ => random.number(),
    };
    [call, tag, first.0, first.1, second.0, second.1, read]
}

/// A call that is given lists, mostly of one length.
pub fn of_lists(random: &mut Random) -> Told {
    let call = [FROM_USAGE, FROM_ENTRIES][random.below(2) as usize];
    let fewer = match random.below(3) {
        0 => random.below(4),
        _ => 0,
    };
    let [second, third] = match random.below(6) {
        0 => [1 + random.below(3), 0],
        1 => [0, 1 + random.below(3)],
        _ => [0, 0],
    };
    let block = (random.below(BASES), near(random));
    [call, fewer, second, third, block.0, block.1, random.next()]
}

/// So many usages of these tags; each has an amount and what it occupies, or a state.
pub fn usages(n: usize, pool: &[u64], random: &mut Random) -> Vec<Usage> {
    (0..n)
        .map(|_| {
            let last = match random.below(3) {
                0 => 1,
                1 => random.below(4),
                _ => random.number(),
            };
            [one(pool, random), random.number(), last]
        })
        .collect()
}

/// Accounts made of a list or of nothing, then so many calls on a few tags.
pub fn sequence(pool: &[u64], listed: usize, calls: usize, random: &mut Random) -> Sequence {
    let mut told = Vec::new();
    if listed > 0 {
        told.push([FROM_USAGE, 0, 0, 0, 0, 0, 0]);
    }
    for _ in 0..calls {
        told.push(match random.below(40) {
            0 => of_lists(random),
            1 if random.below(8) == 0 => [EMPTY, 0, 0, 0, 0, 0, random.next()],
            _ => posting(pool, random),
        });
    }
    Sequence::new(&usages(listed, pool, random), &told)
}

/// A usage of each tag.
pub fn of_each(pool: &[u64], random: &mut Random) -> Vec<Usage> {
    pool.iter()
        .map(|&tag| [tag, random.number(), 1 + random.below(2)])
        .collect()
}

/// As many tags as there may be, one less or more; further calls on them and beside them.
fn of_many(n: usize, calls: usize, random: &mut Random) -> Sequence {
    let pool = tags(n, random);
    let mut told: Vec<Told> = match random.below(3) {
        0 => vec![[FROM_USAGE, 0, 0, 0, 0, 0, 0]],
        1 => vec![[FROM_ENTRIES, 0, 0, 0, 0, 2 * 4096, 0]],
        // one by one
        _ => pool
            .iter()
            .map(|&tag| [3 + random.below(9), tag, 0, 3, 0, 5, tag])
            .collect(),
    };
    for _ in 0..calls {
        told.push(match random.below(64) {
            0 => of_lists(random),
            _ => posting(&pool, random),
        });
    }
    Sequence::new(&of_each(&pool, random), &told)
}

pub fn compare(random: &mut Random, check: Check) -> Result<(), String> {
    for _ in 0..60_000 {
        let pool = tags(1 + random.below(6) as usize, random);
        let listed = match random.below(2) {
            0 => 0,
            _ => random.below(12) as usize,
        };
        check(&sequence(&pool, listed, 24, random))?;
    }
    for i in 0..1500 {
        let n = match i % 4 {
            0 => 1 + random.below(2 * MOST as u64) as usize,
            k => MOST - 2 + k,
        };
        check(&of_many(n, 120, random))?;
    }
    // long lists, over tags that are just not too many, or just too many
    for i in 0..60 {
        let pool = tags(MOST + i % 2, random);
        let mut list = of_each(&pool, random);
        list.extend(usages(1000 + i * 50, &pool, random));
        let from = |call| [call, 0, 0, 0, 0, MAX >> (i % 64), 0];
        check(&Sequence::new(
            &list,
            &[from(FROM_USAGE), from(FROM_ENTRIES)],
        ))?;
    }
    Ok(())
}

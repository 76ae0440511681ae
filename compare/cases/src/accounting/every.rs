//! Every sequence of a few calls with small numbers and numbers at the limits.

use super::Check;
use super::sequence::{
    ADD, ADD_USAGE, CLEAR_CAP, EMPTY, FITS, FROM_ENTRIES, FROM_USAGE, REMOVE, REMOVE_USAGE,
    RESERVE, SET_CAP, Sequence, Told, UNRESERVE, Usage, plain,
};
use super::words::extent_len;
use crate::random::{Random, limits};
use oracle::accounts::entry;
use ours::accounts::{MOST, Row, row_blank};

const MAX: u64 = u64::MAX;

const LAST_TAG: u32 = u32::MAX;

const LIMITS: [u64; 8] = [0, 1, 2, 3, 1 << 63, MAX - 2, MAX - 1, MAX];

/// The calls on a tag that have two amounts, those that have one, and the one that has none.
const TWO: [u64; 4] = [ADD_USAGE, REMOVE_USAGE, ADD, REMOVE];
const ONE: [u64; 4] = [FITS, RESERVE, UNRESERVE, SET_CAP];
const NONE: u64 = CLEAR_CAP;

/// Every call on a tag, with amounts of these.
fn calls(tag: u32, amounts: &[u64]) -> Vec<Told> {
    let mut all = vec![plain(NONE, tag, 0, 0)];
    for &a in amounts {
        all.extend(ONE.map(|call| plain(call, tag, a, 0)));
        for &b in amounts {
            all.extend(TWO.map(|call| plain(call, tag, a, b)));
        }
    }
    all
}

/// Every sequence of n of these calls.
fn sequences(n: usize, calls: &[Told], check: Check) -> Result<(), String> {
    let mut chosen = vec![0; n];
    loop {
        let told: Vec<Told> = chosen.iter().map(|&i| calls[i]).collect();
        check(&Sequence::new(&[], &told))?;
        let Some(k) = chosen.iter().rposition(|&i| i + 1 < calls.len()) else {
            return Ok(());
        };
        chosen[k] += 1;
        chosen[k + 1..].fill(0);
    }
}

/// Every row that two or three limits can make, and every question to it.
fn questions(check: Check) -> Result<(), String> {
    for physical in LIMITS {
        for reserved in LIMITS {
            for cap in LIMITS {
                let mut told = vec![
                    plain(ADD_USAGE, 7, 1, physical),
                    plain(RESERVE, 7, reserved, 0),
                    plain(SET_CAP, 7, cap, 0),
                ];
                told.extend(LIMITS.map(|extra| plain(FITS, 7, extra, 0)));
                // what is left under the cap, and the numbers beside it
                told.extend((0..5).map(|by| [FITS, 7, 2, by, 0, 0, 7]));
                told.push(plain(CLEAR_CAP, 7, 0, 0));
                told.push(plain(FITS, 7, MAX, 0));
                check(&Sequence::new(&[], &told))?;
            }
        }
    }
    Ok(())
}

/// Tags in every order, each row made by each call.
fn orders(check: Check) -> Result<(), String> {
    let tags = [0, 1, 2, LAST_TAG - 1, LAST_TAG];
    let mut order: Vec<u32> = Vec::new();
    let mut ways = Vec::new();
    every_order(&tags, &mut order, &mut ways);
    for call in ADD_USAGE..=CLEAR_CAP {
        for order in &ways {
            let told: Vec<Told> = (1..)
                .zip(order)
                .map(|(k, &tag)| plain(call, tag, k, k))
                .collect();
            check(&Sequence::new(&[], &told))?;
            let usages: Vec<Usage> = (1..).zip(order).map(|(k, &t)| [t.into(), k, 1]).collect();
            let lists = [FROM_USAGE, FROM_ENTRIES].map(|from| [from, 0, 0, 0, 0, 2, 0]);
            check(&Sequence::new(&usages, &lists))?;
        }
    }
    Ok(())
}

fn every_order(tags: &[u32], order: &mut Vec<u32>, ways: &mut Vec<Vec<u32>>) {
    if order.len() == tags.len() {
        ways.push(order.clone());
    }
    for &tag in tags {
        if !order.contains(&tag) {
            order.push(tag);
            every_order(tags, order, ways);
            order.pop();
        }
    }
}

/// Lists of 0 to 98 tags, dense or sparse; then each call on the tags around each end and between.
fn full(check: Check) -> Result<(), String> {
    for n in 0..=MOST as u64 + 2 {
        for step in [2, u64::from(LAST_TAG) / 99] {
            let usages: Vec<Usage> = (1..=n).rev().map(|i| [i * step, i, 1]).collect();
            for from in [FROM_USAGE, FROM_ENTRIES] {
                for call in ADD_USAGE..=CLEAR_CAP {
                    let mut told = vec![[from, 0, 0, 0, 0, 2 * 4096, 0]];
                    for i in [0, 1, n / 2, n.max(1) - 1, n] {
                        told.extend([0, 1].map(|by| plain(call, (i * step + by) as u32, i, by)));
                    }
                    check(&Sequence::new(&usages, &told))?;
                }
            }
        }
    }
    Ok(())
}

/// Lists of different lengths, and with every state.
fn uneven(check: Check) -> Result<(), String> {
    for n in 0..3 {
        let usages: Vec<Usage> = (0..n).map(|i| [i, 5 + i, 1]).collect();
        for second in 0..6 {
            for third in 0..6 {
                let told = [FROM_USAGE, FROM_ENTRIES].map(|from| [from, 0, second, third, 0, 2, 0]);
                check(&Sequence::new(&usages, &told))?;
            }
        }
    }
    let usages: Vec<Usage> = (0..256)
        .map(|state| [state % 3, 1 << (state % 50), state])
        .collect();
    check(&Sequence::new(&usages, &[[FROM_ENTRIES, 0, 0, 0, 0, 2, 0]]))?;
    for state in 0..256 {
        let usages = [[3, 5, state]];
        check(&Sequence::new(&usages, &[[FROM_ENTRIES, 0, 0, 0, 0, 2, 3]]))?;
    }
    Ok(())
}

/// One or two usages and entries at the limits.
fn listed(check: Check) -> Result<(), String> {
    for logical in LIMITS {
        for physical in LIMITS {
            for more in LIMITS {
                let usages = [[9, logical, physical], [9, more, more]];
                check(&Sequence::new(&usages, &[[FROM_USAGE, 0, 0, 0, 0, 0, 9]]))?;
                let entries = [[9, logical, 1], [9, more, 1]];
                let blocks = [
                    (0, 2 * physical.min(3)),
                    (1, physical.min(3)),
                    (12, 0),
                    (12, 1),
                ];
                let told = blocks.map(|(from, by)| [FROM_ENTRIES, 0, 0, 0, from, by, 9]);
                check(&Sequence::new(&entries, &told))?;
            }
        }
    }
    Ok(())
}

pub fn compare(check: Check) -> Result<(), String> {
    let ends = [&calls(0, &[0, 1, MAX])[..], &calls(LAST_TAG, &[0, 1, MAX])].concat();
    sequences(1, &calls(0, &LIMITS), check)?;
    sequences(2, &calls(5, &LIMITS), check)?;
    sequences(3, &calls(5, &[1, MAX - 1, MAX]), check)?;
    sequences(3, &ends, check)?;
    sequences(1, &[[EMPTY, 0, 0, 0, 0, 0, 0]], check)?;
    questions(check)?;
    orders(check)?;
    full(check)?;
    uneven(check)?;
    listed(check)
}

/// A tag's blank row by itself, which is no more than its tag.
pub fn blanks(random: &mut Random) -> Result<usize, String> {
    let tags = [0, 1, LAST_TAG - 1, LAST_TAG];
    let others = (0..1000).map(|_| random.next() as u32);
    for tag in tags.into_iter().chain(others) {
        let blank = Row {
            tag,
            ..Row::default()
        };
        let ours = row_blank(tag);
        if ours != blank {
            return Err(format!("the blank row of {tag} is {ours:?}"));
        }
    }
    Ok(1004)
}

/// `extent_len` by the Rust, by document 01's words and by ours: how many cases ran, or one on which
/// they differ.
pub fn extent_lens(random: &mut Random) -> Result<usize, String> {
    let mut cases = 0;
    let mut check = |size: u64, block: u64| {
        cases += 1;
        let all = [
            extent_len(size, block),
            entry(true, 0, size).extent_len(block),
            ours::accounts::extent_len(size, block),
        ];
        if all[0] == all[1] && all[1] == all[2] {
            return Ok(());
        }
        Err(format!(
            "extent_len({size}, {block}): document 01 says {:?}, the Rust gives {:?}, ours {:?}",
            all[0], all[1], all[2]
        ))
    };
    for size in limits() {
        for block in limits() {
            check(size, block)?;
        }
    }
    for _ in 0..1_000_000 {
        let (size, block) = (random.sized(), random.sized());
        check(size, block)?;
        // two blocks that just reach or just pass the top
        let most = (MAX - size) / 2;
        check(size, most)?;
        check(size, most.wrapping_add(1))?;
        check(MAX - (2 * block).min(size), block)?;
    }
    Ok(cases)
}

//! Accounts that no call handed back: every call ends. Those that count more rows than there are answer
//! 1 and come back as they were.

use super::call::Call;
use super::draw::tags;
use super::sides::by_ours;
use crate::random::Random;
use ours::accounts::{Accounts, MOST, Row, reserved, row, row_at};

/// Any row; without a cap the number for it is 0.
fn any_row(tags: &[u64], random: &mut Random) -> Row {
    let capped = random.below(2) == 0;
    Row {
        tag: tags[random.below(tags.len() as u64) as usize] as u32,
        capped,
        logical: random.number(),
        physical: random.number(),
        reserved: random.number(),
        cap: if capped { random.number() } else { 0 },
    }
}

/// Rows in any order, tags that occur twice, rows behind the count, any count.
fn drawn(pool: &[u64], random: &mut Random) -> Accounts {
    let mut rows = [Row::default(); MOST];
    let filled = random.below(MOST as u64 + 1) as usize;
    for row in &mut rows[..filled] {
        *row = any_row(pool, random);
    }
    if random.below(2) == 0 {
        rows[..filled].sort_by_key(|r| r.tag);
    }
    let count = match random.below(4) {
        0 => random.number() as usize,
        1 => MOST - 1 + random.below(3) as usize,
        _ => filled,
    };
    Accounts {
        rows,
        count,
        reserved: random.number(),
    }
}

fn calls(tag: u32, random: &mut Random) -> [Call; 8] {
    let (a, b) = (random.number(), random.number());
    [
        Call::AddUsage {
            tag,
            logical: a,
            physical: b,
        },
        Call::RemoveUsage {
            tag,
            logical: a,
            physical: b,
        },
        Call::Add {
            tag,
            data_size: a,
            block: b,
        },
        Call::Remove {
            tag,
            data_size: a,
            block: b,
        },
        Call::Fits { tag, extra: a },
        Call::Reserve { tag, bytes: a },
        Call::Unreserve { tag, bytes: a },
        Call::SetCap {
            tag,
            cap: (b % 2 == 0).then_some(a),
        },
    ]
}

/// How many calls were made, or one that is answered otherwise.
pub fn compare(random: &mut Random) -> Result<usize, String> {
    let mut made = 0;
    for _ in 0..100_000 {
        let many = 1 + random.below(120) as usize;
        let pool = tags(many, random);
        let accounts = drawn(&pool, random);
        let tag = any_row(&pool, random).tag;
        for call in calls(tag, random) {
            made += 1;
            let (refusal, fits, after) = by_ours(accounts, &call);
            if accounts.count > MOST && (refusal, fits, after) != (1, false, accounts) {
                return Err(format!(
                    "{call:?} of {accounts:?} answers {refusal} and leaves {after:?}"
                ));
            }
        }
        made += 3;
        row(accounts, tag);
        row_at(accounts, random.number() as usize);
        if reserved(accounts) != accounts.reserved {
            return Err(format!("reserved of {accounts:?} is another number"));
        }
    }
    Ok(made)
}

//! The differences that docs/DIFFERENCES.md lists, each on the input that it names.

use super::call::Call;
use super::sides::by_ours;
use oracle::accounts::{Accounts as Rust, entry};
use ours::accounts::{self, Accounts, MOST};

/// Each call on a tag, with amounts of 0.
fn postings(tag: u32) -> [Call; 9] {
    [
        Call::AddUsage {
            tag,
            logical: 0,
            physical: 0,
        },
        Call::RemoveUsage {
            tag,
            logical: 0,
            physical: 0,
        },
        Call::Add {
            tag,
            data_size: 0,
            block: 0,
        },
        Call::Remove {
            tag,
            data_size: 0,
            block: 0,
        },
        Call::Fits { tag, extra: 0 },
        Call::Reserve { tag, bytes: 0 },
        Call::Unreserve { tag, bytes: 0 },
        Call::SetCap { tag, cap: Some(0) },
        Call::SetCap { tag, cap: None },
    ]
}

/// A call on the accounts of tags 0 to 95: how many rows the Rust then has, and whether the bytes fit.
fn by_rust(call: &Call) -> (usize, bool) {
    let usage: Vec<_> = (0..MOST as u32).map(|tag| (tag, 0, 0)).collect();
    let mut rust = Rust::from_usage(&usage);
    let fits = super::sides::by_rust(&mut rust, call);
    (rust.report().tags.len(), fits)
}

/// The same by ours: the refusal, whether the bytes fit, and whether the accounts are as they were.
fn ours(call: &Call) -> (u64, bool, bool) {
    let tags: Vec<u32> = (0..MOST as u32).collect();
    let made = by_ours(accounts::empty(), &from_usage(tags, [MOST; 2]));
    assert_eq!((made.0, made.2.count), (0, MOST));
    let (refusal, fits, after) = by_ours(made.2, call);
    (refusal, fits, after == made.2)
}

/// Of these tags and so many numbers for each, all 0.
fn from_usage(tags: Vec<u32>, [logical, physical]: [usize; 2]) -> Call {
    Call::FromUsage {
        tags,
        logical: vec![0; logical],
        physical: vec![0; physical],
    }
}

/// Of these tags and states, and so many data sizes, all 0.
fn from_entries(states: Vec<u8>, tags: Vec<u32>, sizes: usize) -> Call {
    Call::FromEntries {
        states,
        tags,
        data_sizes: vec![0; sizes],
        block: 0,
    }
}

/// How many listed differences were found as they are listed, or the first that was not.
pub fn compare() -> Result<usize, String> {
    let mut found = 0;
    for call in postings(MOST as u32) {
        let fits = matches!(call, Call::Fits { .. });
        if (by_rust(&call), ours(&call)) != ((MOST + 1, fits), (19, false, true)) {
            return Err(format!(
                "listed {call:?} of a 97th tag is answered otherwise"
            ));
        }
        found += 1;
    }
    let many = MOST + 1;
    let tags: Vec<u32> = (0..many as u32).collect();
    let usage: Vec<_> = tags.iter().map(|&tag| (tag, 0, 0)).collect();
    let entries: Vec<_> = tags.iter().map(|&tag| entry(true, tag, 0)).collect();
    let rows = [
        Rust::from_usage(&usage).report().tags.len(),
        Rust::from_entries(&entries, 0).report().tags.len(),
    ];
    if rows != [many; 2] {
        return Err(format!(
            "listed lists of 97 tags: the Rust has {rows:?} rows"
        ));
    }
    let one = |state: u8| {
        let mut accounts: Accounts = accounts::empty();
        accounts.count = usize::from(state == 1);
        accounts
    };
    // the call, our refusal, and the accounts handed back
    let lists = [
        (from_usage(tags.clone(), [many; 2]), 19, one(0)),
        (from_entries(vec![1; many], tags.clone(), many), 19, one(0)),
        (from_usage(tags.clone(), [many, 0]), 1, one(0)),
        (from_usage(vec![0], [0, 1]), 1, one(0)),
        (from_usage(vec![0], [1, 0]), 1, one(0)),
        (from_usage(vec![], [1, 0]), 1, one(0)),
        (from_usage(vec![], [0, 1]), 1, one(0)),
        (from_entries(vec![], vec![0], 1), 1, one(0)),
        (from_entries(vec![1], vec![0], 0), 1, one(0)),
        (from_entries(vec![1], vec![], 0), 1, one(0)),
        (from_entries(vec![], vec![], 1), 1, one(0)),
        (from_entries(vec![0], vec![0], 1), 0, one(0)),
        (from_entries(vec![3], vec![0], 1), 0, one(3)),
        (from_entries(vec![1], vec![0], 1), 0, one(1)),
    ];
    for (call, refusal, accounts) in &lists {
        let answered = by_ours(accounts::empty(), call);
        if answered != (*refusal, false, *accounts) {
            return Err(format!("listed {call:?}: found {answered:?}"));
        }
        found += 1;
    }
    Ok(found)
}

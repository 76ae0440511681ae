//! The accounts' times.

use super::draw::tags;
use super::sides::flat;
use crate::random::Random;
use crate::table::{median, row};
use oracle::accounts::Accounts as Rust;
use ours::accounts::{self, Accounts, MOST, Posted, Usages};
use std::hint::black_box;

/// So many usages of these tags in no order, small enough that no sum stops.
struct Drawn {
    tags: Vec<u32>,
    logical: Vec<u64>,
    physical: Vec<u64>,
}

impl Drawn {
    fn new(n: usize, pool: &[u32], random: &mut Random) -> Self {
        let below = |most: u64, random: &mut Random| (0..n).map(|_| random.below(most)).collect();
        let places: Vec<u64> = below(pool.len() as u64, random);
        Self {
            tags: places.iter().map(|&i| pool[i as usize]).collect(),
            logical: below(1 << 40, random),
            physical: below(1 << 40, random),
        }
    }

    fn lists(&self) -> Usages<'_> {
        Usages {
            tags: &self.tags,
            logical: &self.logical,
            physical: &self.physical,
        }
    }

    fn triples(&self) -> Vec<(u32, u64, u64)> {
        let both = self.logical.iter().zip(&self.physical);
        let all = self.tags.iter().zip(both);
        all.map(|(t, (l, p))| (*t, *l, *p)).collect()
    }
}

/// Postings in a row by ours, added or removed.
type Each = fn(Accounts, bool, Usages) -> Posted;

/// A posting to accounts by the Rust, and whether it removes.
type Postings = (fn(&mut Rust, u32, u64, u64), bool);

/// One of so many postings in a row to accounts of 96 tags.
fn postings(name: &str, (by_rust, remove): Postings, start: &[(u32, u64, u64)], drawn: &Drawn) {
    let triples = drawn.triples();
    let mut after = flat(&mut Rust::from_usage(start));
    let begun = after;
    let rust = median(
        21,
        || Rust::from_usage(start),
        |accounts| {
            for &(tag, logical, physical) in &triples {
                by_rust(accounts, tag, logical, physical);
            }
            after = flat(accounts);
        },
    );
    let ours = |each: Each| {
        median(
            21,
            || (),
            |()| {
                let posted = each(begun, remove, drawn.lists());
                assert!(posted.refusal == 0 && posted.accounts == after);
            },
        )
    };
    let (mine, lent) = (ours(accounts::post_each), ours(accounts::count_each));
    let one = |t: f64| t / triples.len() as f64;
    row(&format!("{name} among 96 tags"), one(rust), one(mine));
    row("  in accounts that are lent", one(rust), one(lent));
}

/// One of so many usages in a row on one tag's row, which the Rust finds among the tag alone.
fn one_row(drawn: &Drawn) {
    let start = [(7, 1 << 60, 1 << 60)];
    let both = || drawn.logical.iter().zip(&drawn.physical);
    let pairs: Vec<u64> = both().flat_map(|(l, p)| [*l, *p]).collect();
    let begun = flat(&mut Rust::from_usage(&start)).rows[0];
    let mut after = begun;
    let rust = median(
        21,
        || Rust::from_usage(&start),
        |accounts| {
            for (&logical, &physical) in both() {
                accounts.add_usage(7, logical, physical);
            }
            after = flat(accounts).rows[0];
        },
    );
    let lent = median(
        21,
        || begun,
        |row| {
            accounts::row_count_each(row, black_box(&pairs));
            assert_eq!(*row, after);
        },
    );
    let value = median(
        21,
        || begun,
        |row| assert_eq!(accounts::row_add_each(*row, black_box(&pairs)), after),
    );
    let one = |t: f64| t / (pairs.len() / 2) as f64;
    row("a usage on one tag's row, lent", one(rust), one(lent));
    row("  by value", one(rust), one(value));
}

/// About half of the questions are within the cap.
fn fits(start: &[(u32, u64, u64)], drawn: &Drawn) {
    let mut accounts = Rust::from_usage(start);
    for &(tag, _, physical) in start {
        accounts.set_cap(tag, Some(physical + (1 << 39)));
    }
    let begun = flat(&mut accounts);
    let questions: Vec<(u32, u64)> = drawn.triples().iter().map(|u| (u.0, u.1)).collect();
    let mut within = 0;
    let rust = median(
        21,
        || (),
        |()| {
            let fit = |&&(tag, extra): &&(u32, u64)| accounts.fits(tag, extra);
            within = questions.iter().filter(fit).count() as u64;
        },
    );
    let mine = median(
        21,
        || (),
        |()| {
            let found = accounts::fits_each(begun, &drawn.tags, &drawn.logical);
            assert_eq!(found, (0, within));
        },
    );
    let lent = median(
        21,
        || (),
        |()| {
            let found = accounts::allows_each(begun, &drawn.tags, &drawn.logical);
            assert_eq!(found, within);
        },
    );
    let one = |t: f64| t / questions.len() as f64;
    row("fits among 96 tags", one(rust), one(mine));
    row("  in accounts that are lent", one(rust), one(lent));
}

fn from_usage(name: &str, n: usize, pool: &[u32], random: &mut Random) {
    let drawn = Drawn::new(n, pool, random);
    let triples = drawn.triples();
    let due = flat(&mut Rust::from_usage(&triples));
    let rust = median(
        101,
        || None,
        |made| *made = Some(Rust::from_usage(black_box(&triples))),
    );
    let mine = median(
        101,
        || (),
        |()| {
            let posted = accounts::from_usage(drawn.lists());
            assert!(posted.refusal == 0 && posted.accounts == due);
        },
    );
    row(&format!("from_usage of {name}"), rust, mine);
}

pub fn bench(random: &mut Random) {
    let pool: Vec<u32> = (0..MOST as u64)
        .map(|i| (i * (1 << 25) + random.below(1 << 25)) as u32)
        .collect();
    let start: Vec<_> = pool.iter().map(|&tag| (tag, 1 << 60, 1 << 60)).collect();
    // so many that no predictor learns them
    let drawn = Drawn::new(1 << 16, &pool, random);
    let add: Postings = (Rust::add_usage, false);
    let remove: Postings = (Rust::remove_usage, true);
    postings("add_usage", add, &start, &drawn);
    postings("remove_usage", remove, &start, &drawn);
    one_row(&drawn);
    fits(&start, &drawn);
    from_usage("4,000 usages, 96 tags", 4000, &pool, random);
    let few: Vec<u32> = tags(4, random).iter().map(|&t| t as u32).collect();
    from_usage("64 usages, 4 tags", 64, &few, random);
}

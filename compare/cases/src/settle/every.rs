//! Every set of a few records with a few ranges.

use super::Check;
use super::case::{Case, NAME, NO_NAME, Record};

const MAX: u64 = u64::MAX;

/// A record without ranges, whose name is of one byte.
fn record(usable: bool, seq: u64, len: u8, first: u8) -> Record {
    let mut name = [0; NAME];
    name[0] = first;
    Record {
        usable,
        seq,
        len,
        name,
        ranges: Vec::new(),
        count: None,
    }
}

/// Each kind of record with each of these numbers and names; an unavailable one also without a name.
fn every_record(seqs: &[u64], names: &[u8]) -> Vec<Record> {
    let mut all = Vec::new();
    for &seq in seqs {
        for &name in names {
            all.push(record(true, seq, 1, name));
            all.push(record(false, seq, 1, name));
        }
        all.push(record(false, seq, NO_NAME, names[0]));
    }
    all
}

/// Every list of n of these.
fn lists<T: Clone>(n: usize, of: &[T]) -> Vec<Vec<T>> {
    let mut all = vec![Vec::new()];
    for _ in 0..n {
        let longer = |list: &Vec<T>| -> Vec<Vec<T>> {
            of.iter()
                .map(|x| [&list[..], std::slice::from_ref(x)].concat())
                .collect()
        };
        all = all.iter().flat_map(longer).collect();
    }
    all
}

/// Checks every set of these records with every way to give them the ranges.
fn sets(records: &[Vec<Record>], ranges: &[Vec<(u64, u64)>], check: Check) -> Result<(), String> {
    let mut made = 0;
    for records in records {
        let all: Vec<usize> = (0..records.len()).collect();
        for ranges in ranges {
            for owners in lists(ranges.len(), &all) {
                if !owners.is_sorted() {
                    continue;
                }
                let mut set = records.clone();
                for (&owner, &range) in owners.iter().zip(ranges) {
                    set[owner].ranges.push(range);
                }
                made += 1;
                check(&Case::new(&set, made))?;
            }
        }
    }
    Ok(())
}

/// Each case has other numbers in scratch and in the marks before.
pub fn compare(check: Check) -> Result<(), String> {
    // up to four records of two names and three numbers, without ranges
    let few = every_record(&[0, 1, MAX], b"ab");
    for n in 0..=4 {
        sets(&lists(n, &few), &[Vec::new()], check)?;
    }
    // up to three records of two names and two numbers, with up to two ranges of bytes 0 to 2
    let within: Vec<(u64, u64)> = (0..3)
        .flat_map(|start| (0..=3 - start).map(move |len| (start, len)))
        .collect();
    let few = every_record(&[0, 1], b"ab");
    for n in 1..=3 {
        sets(&lists(n, &few), &lists(1, &within), check)?;
        sets(&lists(n, &few), &lists(2, &within), check)?;
    }
    // up to three records of one name and two numbers, with three ranges that have a byte
    let some: Vec<(u64, u64)> = within.iter().copied().filter(|r| r.1 > 0).collect();
    let fewer: Vec<Record> = few.iter().filter(|r| r.name[0] == b'a').cloned().collect();
    for n in 1..=3 {
        sets(&lists(n, &fewer), &lists(3, &some), check)?;
    }
    // one or two records with up to two ranges at the last bytes
    let last: Vec<(u64, u64)> = [MAX - 3, MAX - 2, MAX - 1, MAX]
        .into_iter()
        .flat_map(|start| [0, 1, 2, 3, 4, MAX - 1, MAX].map(|len| (start, len)))
        .chain([(0, MAX), (1, MAX), (0, MAX - 1), (MAX / 2, MAX / 2 + 1)])
        .collect();
    for n in 1..=2 {
        sets(&lists(n, &few), &lists(2, &last), check)?;
    }
    Ok(())
}

//! The differences that docs/DIFFERENCES.md lists, each on the input that it names.

use super::case::{
    COUNTS, Case, LENS, MARKS, NAME, NAMES, NO_NAME, RANGES, Record, SCRATCH, SEQS,
    UNAVAILABLE_SIZES,
};
use super::sides::{MOST_RANGES, MOST_RECORDS, RENAMED, by_ours};
use oracle::settle::{Record as RustRecord, Regions, text};

/// A record of number 0 and the empty name, with so many ranges (0, 0).
fn record(usable: bool, ranges: usize) -> Record {
    Record {
        usable,
        seq: 0,
        len: 0,
        name: [0; NAME],
        ranges: vec![(0, 0); ranges],
        count: None,
    }
}

fn named(usable: bool, len: u8) -> Record {
    Record {
        len,
        ..record(usable, 0)
    }
}

/// The Rust's marks on these records. A name may be longer than its 24 bytes: zeros follow them.
fn by_rust(records: &[Record]) -> Vec<u8> {
    let of_kind = |usable: bool| -> Vec<RustRecord> {
        let of = |r: &Record| {
            let mut name = r.name.to_vec();
            name.resize(r.len.into(), 0);
            RustRecord {
                seq: r.seq,
                name: (usable || r.len != NO_NAME).then(|| text(&name)),
                ranges: r.ranges.clone(),
            }
        };
        let mut records = records.to_vec();
        records.retain(|r| r.usable == usable);
        records.iter().map(of).collect()
    };
    let (usable, unavailable) = (of_kind(true), of_kind(false));
    Regions::new(&usable, &unavailable).settle().marks()
}

/// How many listed differences were found as they are listed, or the first that was not.
pub fn compare() -> Result<usize, String> {
    let most = MOST_RECORDS + 1;
    let one = || vec![record(true, 0)];
    let own = || vec![record(false, 0)];
    let with_range = || vec![record(true, 1)];
    let counted = |usable: bool| Record {
        count: Some(1),
        ..record(usable, 0)
    };
    let second = UNAVAILABLE_SIZES;
    let renamed = vec![RENAMED; most];
    // the records, a list that is one longer (1) or shorter (2) than needed, the Rust's marks
    let rows: Vec<(Vec<Record>, Option<(usize, u64)>, Vec<u8>)> = vec![
        (vec![record(true, 0); most], None, renamed),
        (vec![record(false, 0); most], None, vec![]),
        (vec![record(true, MOST_RANGES + 1)], None, vec![0]),
        (vec![record(false, MOST_RANGES + 1)], None, vec![]),
        (
            vec![record(true, MOST_RANGES), record(false, 1)],
            None,
            vec![RENAMED],
        ),
        (vec![named(true, 25)], None, vec![0]),
        (vec![named(true, NO_NAME)], None, vec![0]),
        (vec![named(false, 25)], None, vec![]),
        (vec![named(false, 254)], None, vec![]),
        (one(), Some((MARKS, 2)), vec![0]),
        (with_range(), Some((SCRATCH, 2)), vec![0]),
        (vec![record(false, 1)], Some((SCRATCH, 2)), vec![]),
        // the Rust is given the whole record
        (one(), Some((SEQS, 2)), vec![0]),
        (one(), Some((COUNTS, 2)), vec![0]),
        (one(), Some((LENS, 2)), vec![0]),
        (one(), Some((NAMES, 2)), vec![0]),
        (one(), Some((RANGES, 1)), vec![0]),
        (vec![counted(true)], None, vec![0]),
        (own(), Some((second + SEQS, 2)), vec![]),
        (own(), Some((second + COUNTS, 2)), vec![]),
        (own(), Some((second + LENS, 2)), vec![]),
        (own(), Some((second + NAMES, 2)), vec![]),
        (own(), Some((second + RANGES, 1)), vec![]),
        (vec![counted(false)], None, vec![]),
    ];
    for (i, (records, size, marks)) in rows.iter().enumerate() {
        let mut case = Case::new(records, 1);
        if let Some((k, size)) = *size {
            case.sizes[k] = size;
        }
        let lists = case.lists();
        let (rust, ours) = (by_rust(records), by_ours(&lists));
        let unchanged = ours.kept && ours.marks == lists.marks;
        if rust != *marks || ours.refusal != 1 || !unchanged {
            return Err(format!(
                "listed difference {i}: the Rust gives {rust:?}, ours {ours:?}"
            ));
        }
    }
    Ok(rows.len())
}

//! The same accounts by the Rust, by document 01's words and by ours.

use super::call::{Call, READY};
use super::words::Words;
use oracle::accounts::{Accounts as Rust, TagSpace, entry};
use ours::accounts::{self, Accounts, MOST, Posted, Row, Usages};
use std::collections::BTreeSet;

/// What a call answers, and what is then read of the accounts that it leaves.
#[derive(Debug, PartialEq)]
pub struct Answer {
    pub refusal: u64,
    pub fits: bool,
    /// What the call hands back: the accounts as they were where it is refused, the empty ones where
    /// none were given.
    pub accounts: Accounts,
    pub reserved: u64,
    /// The rows of the two tags that are asked for.
    pub rows: [Row; 2],
    pub row_at: Row,
    /// What the call makes of its tag's row by itself, and whether the bytes fit.
    pub alone: Option<(Row, bool)>,
    /// What the posting of one usage makes of its tag's row where that is lent.
    pub lent: Option<Row>,
}

/// Which rows are read after a call: those of two tags, and the one at a place.
#[derive(Clone, Copy, Debug)]
pub struct Probe {
    pub tags: [u32; 2],
    pub place: usize,
}

/// What document 01 or the Rust says, and what the Rust or ours answers.
pub type Difference = Box<(&'static str, Answer, &'static str, Answer)>;

pub struct Sides {
    rust: Rust,
    words: Words,
    /// What the Rust's accounts come to in our record.
    pub due: Accounts,
    pub ours: Accounts,
}

fn row(t: &TagSpace) -> Row {
    Row {
        tag: t.tag,
        capped: t.cap.is_some(),
        logical: t.logical,
        physical: t.physical,
        reserved: t.reserved,
        cap: t.cap.unwrap_or(0),
    }
}

/// The Rust's accounts in our record; it has as many rows.
pub fn flat(rust: &mut Rust) -> Accounts {
    let report = rust.report();
    let mut rows = [Row::default(); MOST];
    assert!(report.tags.len() <= MOST, "{} tags", report.tags.len());
    for (place, t) in rows.iter_mut().zip(&report.tags) {
        *place = row(t);
    }
    assert_eq!(report.reserved, rust.reserved());
    Accounts {
        rows,
        count: report.tags.len(),
        reserved: report.reserved,
    }
}

/// What is read of the accounts that a call leaves: the rows in order up to the count. The probe's
/// first tag is the call's.
fn read(
    call: &Call,
    (refusal, fits, handed): (u64, bool, Accounts),
    left: &Accounts,
    probe: Probe,
) -> Answer {
    let rows = &left.rows[..left.count];
    let of = |tag: u32| Row {
        tag,
        ..Row::default()
    };
    let row = |tag: u32| *rows.iter().find(|r| r.tag == tag).unwrap_or(&of(tag));
    Answer {
        refusal,
        fits,
        accounts: handed,
        reserved: left.reserved,
        rows: probe.tags.map(row),
        row_at: rows.get(probe.place).copied().unwrap_or_default(),
        alone: (refusal == 0 && call.is_on_row()).then(|| (row(probe.tags[0]), fits)),
        lent: (refusal == 0 && call.is_usage()).then(|| row(probe.tags[0])),
    }
}

/// Does a call on the Rust's accounts; answers whether the bytes fit. It knows the states 1 and 2
/// alone: any other is told as 2.
pub fn by_rust(rust: &mut Rust, call: &Call) -> bool {
    match *call {
        Call::Empty => *rust = Rust::default(),
        Call::FromUsage {
            ref tags,
            ref logical,
            ref physical,
        } => {
            let both = logical.iter().zip(physical);
            let usage: Vec<_> = tags
                .iter()
                .zip(both)
                .map(|(t, (l, p))| (*t, *l, *p))
                .collect();
            *rust = Rust::from_usage(&usage);
        }
        Call::FromEntries {
            ref states,
            ref tags,
            ref data_sizes,
            block,
        } => {
            let both = tags.iter().zip(data_sizes);
            let entries = states
                .iter()
                .zip(both)
                .map(|(s, (t, d))| entry(*s == READY, *t, *d));
            *rust = Rust::from_entries(&entries.collect::<Vec<_>>(), block);
        }
        Call::AddUsage {
            tag,
            logical,
            physical,
        } => rust.add_usage(tag, logical, physical),
        Call::RemoveUsage {
            tag,
            logical,
            physical,
        } => rust.remove_usage(tag, logical, physical),
        Call::Add {
            tag,
            data_size,
            block,
        } => rust.add(&entry(true, tag, data_size), block),
        Call::Remove {
            tag,
            data_size,
            block,
        } => rust.remove(&entry(true, tag, data_size), block),
        Call::Fits { tag, extra } => return rust.fits(tag, extra),
        Call::Reserve { tag, bytes } => rust.reserve(tag, bytes),
        Call::Unreserve { tag, bytes } => rust.unreserve(tag, bytes),
        Call::SetCap { tag, cap } => rust.set_cap(tag, cap),
    }
    false
}

/// Does a call on our accounts: the refusal, whether the bytes fit, and the accounts handed back.
pub fn by_ours(a: Accounts, call: &Call) -> (u64, bool, Accounts) {
    let Posted { refusal, accounts } = match *call {
        Call::Empty => Posted {
            refusal: 0,
            accounts: accounts::empty(),
        },
        Call::FromUsage {
            ref tags,
            ref logical,
            ref physical,
        } => accounts::from_usage(Usages {
            tags,
            logical,
            physical,
        }),
        Call::FromEntries {
            ref states,
            ref tags,
            ref data_sizes,
            block,
        } => accounts::from_entries(states, tags, data_sizes, block),
        Call::AddUsage {
            tag,
            logical,
            physical,
        } => accounts::add_usage(a, tag, logical, physical),
        Call::RemoveUsage {
            tag,
            logical,
            physical,
        } => accounts::remove_usage(a, tag, logical, physical),
        Call::Add {
            tag,
            data_size,
            block,
        } => accounts::add(a, tag, data_size, block),
        Call::Remove {
            tag,
            data_size,
            block,
        } => accounts::remove(a, tag, data_size, block),
        Call::Fits { tag, extra } => {
            let r = accounts::fits(a, tag, extra);
            return (r.refusal, r.fits, r.accounts);
        }
        Call::Reserve { tag, bytes } => accounts::reserve(a, tag, bytes),
        Call::Unreserve { tag, bytes } => accounts::unreserve(a, tag, bytes),
        Call::SetCap { tag, cap } => accounts::set_cap(a, tag, cap),
    };
    (refusal, false, accounts)
}

/// Does a call on a tag's row by itself, where there is such a call.
fn by_row(row: Row, call: &Call) -> Option<(Row, bool)> {
    let after = match *call {
        Call::AddUsage {
            logical, physical, ..
        } => accounts::row_add_usage(row, logical, physical),
        Call::RemoveUsage {
            logical, physical, ..
        } => accounts::row_remove_usage(row, logical, physical),
        Call::Reserve { bytes, .. } => accounts::row_reserve(row, bytes),
        Call::Unreserve { bytes, .. } => accounts::row_unreserve(row, bytes),
        Call::SetCap { cap, .. } => accounts::row_set_cap(row, cap),
        Call::Fits { extra, .. } => return Some((row, accounts::row_fits(row, extra))),
        _ => return None,
    };
    Some((after, false))
}

/// Posts a usage on a tag's row that is lent from between two others, which stay as they are.
fn by_lent_row(row: Row, call: &Call) -> Option<Row> {
    let other = Row {
        tag: 7_000_001,
        logical: 7_000_002,
        ..row
    };
    let mut rows = [other, row, other];
    match *call {
        Call::AddUsage {
            logical, physical, ..
        } => accounts::row_count_usage(&mut rows[1], logical, physical),
        Call::RemoveUsage {
            logical, physical, ..
        } => accounts::row_uncount_usage(&mut rows[1], logical, physical),
        _ => return None,
    }
    assert!(
        rows[0] == other && rows[2] == other,
        "{call:?} leaves {rows:?}"
    );
    Some(rows[1])
}

impl Sides {
    pub fn new() -> Self {
        let mut rust = Rust::default();
        Self {
            due: flat(&mut rust),
            rust,
            words: Words::default(),
            ours: accounts::empty(),
        }
    }

    /// Document 01's refusals 1 and 19, which the Rust does not have: the lowest, or 0.
    pub fn refusal(&self, call: &Call) -> u64 {
        if call.uneven() {
            return 1;
        }
        let rows = &self.due.rows[..self.due.count];
        let many = match call.tag() {
            Some(tag) if rows.iter().all(|r| r.tag != tag) => self.due.count + 1,
            Some(_) => self.due.count,
            None => BTreeSet::from_iter(call.counted()).len(),
        };
        if many > MOST { 19 } else { 0 }
    }

    /// The answer that is due: the Rust's where document 01 does not refuse.
    pub fn ask_due(&mut self, call: &Call, probe: Probe) -> Answer {
        let refusal = self.refusal(call);
        if refusal != 0 {
            let handed = match call.tag() {
                Some(_) => self.due,
                None => flat(&mut Rust::default()),
            };
            return read(call, (refusal, false, handed), &self.due, probe);
        }
        let fits = by_rust(&mut self.rust, call);
        self.due = flat(&mut self.rust);
        read(call, (0, fits, self.due), &self.due, probe)
    }

    pub fn ask_ours(&mut self, call: &Call, probe: Probe) -> Answer {
        let before = accounts::row(self.ours, probe.tags[0]);
        let (refusal, fits, handed) = by_ours(self.ours, call);
        if refusal == 0 || call.tag().is_some() {
            self.ours = handed;
        }
        Answer {
            refusal,
            fits,
            accounts: handed,
            reserved: accounts::reserved(self.ours),
            rows: probe.tags.map(|tag| accounts::row(self.ours, tag)),
            row_at: accounts::row_at(self.ours, probe.place),
            alone: (refusal == 0).then(|| by_row(before, call)).flatten(),
            lent: (refusal == 0).then(|| by_lent_row(before, call)).flatten(),
        }
    }

    /// The two answers, if they differ; else the one that is due.
    pub fn ask(&mut self, call: &Call, probe: Probe) -> Result<Answer, Difference> {
        let refused = self.refusal(call) != 0;
        let due = self.ask_due(call, probe);
        if !refused {
            let fits = self.words.call(call);
            let flat = self.words.flat();
            let words = read(call, (0, fits, flat), &flat, probe);
            if words != due {
                return Err(Box::new(("document 01 says", words, "the Rust gives", due)));
            }
        }
        let ours = self.ask_ours(call, probe);
        if ours != due {
            return Err(Box::new(("due is", due, "ours gives", ours)));
        }
        Ok(due)
    }
}

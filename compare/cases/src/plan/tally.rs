//! How often each call was answered in each way, and how often it came to a limit.

use super::call::{Answer, CALLS, Call, EXTENTS, NAME, Opening, REGIONS, Range, SLOT};
use super::records::LONGEST;
use super::sequence::Step;
use std::collections::BTreeMap;

const REFUSALS: usize = 26;

#[derive(Default)]
pub struct Tally {
    refusals: [[usize; REFUSALS]; CALLS.len()],
    ways: BTreeMap<&'static str, usize>,
    caps: BTreeMap<u32, u64>,
}

/// What must have occurred beside the refusals.
const WAYS: [&str; 49] = [
    "open: no records",
    "open: 64 records",
    "open: an Append region",
    "open: a Page region",
    "open: a Slot region",
    "open: an extra",
    "open: header log 9",
    "open: 60 extents",
    "open: table end 0",
    "open: table end within a block",
    "open: table end is the length",
    "open: length 2^63 - 1",
    "open: last number 2^64 - 1",
    "open: equal sequence numbers",
    "create: the 64th region",
    "create: a name of 0 bytes",
    "create: a name of 24 bytes",
    "create: between held bytes",
    "create: behind all",
    "create: nothing left free",
    "create: below all",
    "create: among more than 96 ranges",
    "create: between more than 96 ranges",
    "create: the last number is then 2^64 - 1",
    "grow: joins its last extent",
    "grow: elsewhere",
    "grow: the first extent at byte 0",
    "grow: the 60th extent",
    "grow: the 60th extent and run",
    "grow: below its span",
    "grow: within its span",
    "grow: among more than 96 ranges",
    "grow: between more than 96 ranges",
    "grow: nothing left free",
    "grow: a region from open",
    "cap: met exactly",
    "cap: one left",
    "cap: one too few",
    "cap: below what is used",
    "publish: raised",
    "publish: no more than before",
    "publish: the whole capacity",
    "drop: the last number's region",
    "drop: a region with data",
    "locate: n 0 without extents",
    "locate: n 0 at the data's end",
    "locate: at a join of two runs",
    "locate: across joined extents",
    "locate: one past the data",
];

impl Tally {
    fn way(&mut self, way: &'static str, occurs: bool) {
        *self.ways.entry(way).or_default() += usize::from(occurs);
    }

    pub fn count(&mut self, step: &Step) {
        let place = step.call.map_or(0, Call::place);
        self.refusals[place][step.answer.refusal() as usize] += 1;
        match step.call {
            None => {
                self.caps.clear();
                self.count_open(step);
            }
            Some(Call::Create { .. } | Call::Grow { .. }) => {
                self.count_cap(step);
                self.count_place(step);
            }
            Some(&Call::Cap { tag, max }) if step.answer.accepted() => {
                let used = step.before.totals(tag).1;
                self.way("cap: below what is used", max.is_some_and(|max| max < used));
                match max {
                    Some(max) => self.caps.insert(tag, max),
                    None => self.caps.remove(&tag),
                };
            }
            Some(Call::Publish { .. } | Call::Drop { .. } | Call::Locate { .. }) => {
                self.count_rest(step);
            }
            Some(Call::Cap { .. }) => {}
        }
    }

    fn count_open(&mut self, step: &Step) {
        if !step.answer.accepted() {
            return;
        }
        let Opening {
            limits, records, ..
        } = step.opening;
        let mut seqs: Vec<u64> = records.iter().map(|r| r.entry.footprint_seq).collect();
        seqs.sort_unstable();
        let kind = |kind| records.iter().any(|r| r.entry.kind == kind);
        let end = limits.table_end;
        let ways = [
            ("open: no records", records.is_empty()),
            ("open: 64 records", records.len() == REGIONS),
            ("open: an Append region", kind(1)),
            ("open: a Page region", kind(2)),
            ("open: a Slot region", kind(SLOT)),
            (
                "open: an extra",
                records
                    .iter()
                    .any(|r| r.header.extent_count > r.entry.extent_count),
            ),
            (
                "open: header log 9",
                records.iter().any(|r| r.header.log2_block == 9),
            ),
            (
                "open: 60 extents",
                records
                    .iter()
                    .any(|r| usize::from(r.entry.extent_count) == EXTENTS),
            ),
            ("open: table end 0", end == 0),
            ("open: table end within a block", end % limits.block() != 0),
            ("open: table end is the length", end == limits.file_len),
            ("open: length 2^63 - 1", limits.file_len == LONGEST),
            ("open: last number 2^64 - 1", seqs.last() == Some(&u64::MAX)),
            (
                "open: equal sequence numbers",
                seqs.windows(2).any(|s| s[0] == s[1]),
            ),
        ];
        ways.into_iter()
            .for_each(|(way, occurs)| self.way(way, occurs));
    }

    /// How what is asked stands to the cap.
    fn count_cap(&mut self, step: &Step) {
        let (tag, extra) = match *step.call.expect("a call") {
            Call::Create { tag, .. } => (tag, 2 * step.opening.limits.block()),
            Call::Grow { id } => {
                let Some((record, _)) = step.before.find(id) else {
                    return;
                };
                let step_n = 16 << (record.entry.extent_count / 2).min(11);
                (record.tag, step_n * step.opening.limits.block())
            }
            _ => return,
        };
        let Some(&cap) = self.caps.get(&tag) else {
            return;
        };
        let sum = u128::from(step.before.totals(tag).1) + u128::from(extra);
        let placed = step.answer.accepted();
        self.way("cap: met exactly", placed && sum == cap.into());
        self.way("cap: one left", placed && sum + 1 == cap.into());
        let refused = step.answer == Answer::Refused(21);
        self.way("cap: one too few", refused && sum == u128::from(cap) + 1);
    }

    /// Where a create or a grow is placed.
    fn count_place(&mut self, step: &Step) {
        let Answer::At(at) = step.answer else { return };
        let block = step.opening.limits.block();
        let held: Vec<Range> = step
            .before
            .regions
            .iter()
            .flat_map(|(r, extents)| {
                let headers = [(r.entry.header_a, block), (r.entry.header_b, block)];
                [&headers, &extents[..]].concat()
            })
            .collect();
        let (below, above) = (held.iter().any(|r| r.0 < at), held.iter().any(|r| r.0 > at));
        let nothing_left = step.after.free == 0;
        let many = held.len() > 96;
        match step.call.expect("a call") {
            Call::Create { name, .. } => {
                let ways = [
                    (
                        "create: the 64th region",
                        step.after.regions.len() == REGIONS,
                    ),
                    ("create: a name of 0 bytes", name.is_empty()),
                    ("create: a name of 24 bytes", name.len() == NAME),
                    ("create: between held bytes", below && above),
                    ("create: behind all", below && !above),
                    ("create: nothing left free", nothing_left),
                    ("create: below all", above && !below),
                    ("create: among more than 96 ranges", many),
                    (
                        "create: between more than 96 ranges",
                        many && below && above,
                    ),
                    (
                        "create: the last number is then 2^64 - 1",
                        step.after.last_number == u64::MAX,
                    ),
                ];
                ways.into_iter()
                    .for_each(|(way, occurs)| self.way(way, occurs));
            }
            Call::Grow { id } => {
                let (record, extents) = step.before.find(*id).expect("it grew");
                let joins = extents.last().is_some_and(|e| e.0 + e.1 == at);
                let apart = extents.windows(2).all(|e| e[0].0 + e[0].1 != e[1].0);
                let (from, to) = (record.entry.span_start, record.entry.span_end);
                let opened = step.opening.records.iter().any(|r| r.number == *id);
                let ways = [
                    ("grow: joins its last extent", joins),
                    ("grow: elsewhere", !joins && !extents.is_empty()),
                    (
                        "grow: the first extent at byte 0",
                        extents.is_empty() && at == 0,
                    ),
                    ("grow: the 60th extent", extents.len() + 1 == EXTENTS),
                    (
                        "grow: the 60th extent and run",
                        extents.len() + 1 == EXTENTS && apart && !joins,
                    ),
                    ("grow: below its span", at < from),
                    ("grow: within its span", from < at && at < to),
                    ("grow: among more than 96 ranges", many),
                    ("grow: between more than 96 ranges", many && below && above),
                    ("grow: nothing left free", nothing_left),
                    ("grow: a region from open", opened),
                ];
                ways.into_iter()
                    .for_each(|(way, occurs)| self.way(way, occurs));
            }
            _ => {}
        }
    }

    fn count_rest(&mut self, step: &Step) {
        let accepted = step.answer.accepted();
        match *step.call.expect("a call") {
            Call::Publish { id, len } if accepted => {
                let (record, _) = step.before.find(id).expect("it is known");
                let before = record.entry.data_size;
                self.way("publish: raised", len > before);
                self.way("publish: no more than before", len < before);
                let whole = len > before && len == record.entry.capacity;
                self.way("publish: the whole capacity", whole);
            }
            Call::Drop { id } if accepted => {
                let entry = &step.before.find(id).expect("it is known").0.entry;
                let last = entry.footprint_seq == step.before.last_number;
                self.way("drop: the last number's region", last);
                self.way("drop: a region with data", entry.data_size > 0);
            }
            Call::Locate { id, pos, n } => {
                let Some((record, extents)) = step.before.find(id) else {
                    return;
                };
                let data = record.entry.data_size;
                let past = u128::from(pos) + u128::from(n) == u128::from(data) + 1;
                self.way(
                    "locate: one past the data",
                    past && step.answer == Answer::Refused(23),
                );
                if !accepted {
                    return;
                }
                self.way("locate: n 0 without extents", extents.is_empty());
                let at_end = n == 0 && pos == data && data > 0;
                self.way("locate: n 0 at the data's end", at_end);
                let (mut start, mut last) = (0, None);
                for &(file, len) in extents {
                    let follows = last == Some(file);
                    let split = last.is_some() && !follows;
                    self.way("locate: at a join of two runs", split && pos == start);
                    let across = follows && pos < start && start < pos + n;
                    self.way("locate: across joined extents", across);
                    (start, last) = (start + len, Some(file + len));
                }
            }
            _ => {}
        }
    }

    /// Prints the counts; an answer or a way that never occurred is an error.
    pub fn all_seen(&self) -> Result<usize, String> {
        for ((name, can), counts) in CALLS.iter().zip(&self.refusals) {
            let seen: Vec<String> = can.iter().map(|&k| format!("{k}: {}", counts[k])).collect();
            println!("{name} by refusal: {}", seen.join(", "));
            if let Some(k) = can.iter().find(|&&k| counts[k] == 0) {
                return Err(format!("no {name} was answered with {k}"));
            }
            if let Some(k) = (0..REFUSALS).find(|k| counts[*k] > 0 && !can.contains(k)) {
                return Err(format!("{name} was answered with {k}"));
            }
        }
        let seen = |way: &str| self.ways.get(way).copied().unwrap_or(0);
        for call in CALLS.iter().map(|c| c.0) {
            let own = |way: &'static str| way.strip_prefix(call)?.strip_prefix(": ");
            let ways: Vec<String> = WAYS
                .iter()
                .filter_map(|&way| own(way).map(|w| format!("{w}: {}", seen(way))))
                .collect();
            println!("{call} by way: {}", ways.join(", "));
        }
        if let Some(way) = WAYS.iter().find(|way| seen(way) == 0) {
            return Err(format!("never {way}"));
        }
        if let Some(way) = self.ways.keys().find(|way| !WAYS.contains(way)) {
            return Err(format!("'{way}' is not listed"));
        }
        Ok(self.refusals.iter().flatten().sum())
    }
}

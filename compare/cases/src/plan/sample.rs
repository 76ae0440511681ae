//! A stored sample of the model's answers.

use super::call::{Answer, CALLS, Call, EXTENTS, Opening, Places, REGIONS, Record, TAGS};
use super::draw::{calls, empty};
use super::model::Model;
use super::records::{LONGEST, drawn, of_counts};
use super::sequence::{
    CREATE, Case, DROP, GROW, LOCATE, PUBLISH, SET_CAP, Told, ToldCall, lent_by, named, plain,
};
use super::side::Side;
use super::spoil::spoil;
use crate::flat::{flat, list, words};
use crate::random::Random;

/// What the program has room for: numbers of the lists and of scratch, and bytes of a name.
const LENT: Places = Places {
    extents: Places::ALL.extents + 8,
    starts: Places::ALL.starts + 8,
    files: Places::ALL.files + 8,
};
const SCRATCH: usize = 8192;
const NAME: usize = 64;

/// The number of a region that is handed out.
const LOOK: usize = 8;

/// A record's numbers, but for its name.
fn numbers(r: &Record) -> Vec<u64> {
    let (e, h) = (&r.entry, &r.header);
    vec![
        r.number,
        r.tag.into(),
        r.name.len.into(),
        e.kind.into(),
        e.flags.into(),
        e.extent_count.into(),
        e.header_a,
        e.header_b,
        e.span_start,
        e.span_end,
        e.data_size,
        e.capacity,
        e.footprint_seq,
        h.region_id,
        h.kind.into(),
        h.flags.into(),
        h.ready.into(),
        h.log2_block.into(),
        h.extent_count.into(),
    ]
}

/// With the bytes of the name.
fn record(r: &Record) -> Vec<u64> {
    let mut numbers = numbers(r);
    numbers.extend(r.name.bytes.map(u64::from));
    numbers
}

fn bytes(name: &[u8]) -> Vec<u64> {
    name.iter().map(|b| u64::from(*b)).collect()
}

fn lent(lent: Places) -> String {
    let extents = lent.extents.min(LENT.extents);
    let starts = lent.starts.min(LENT.starts);
    let files = lent.files.min(LENT.files);
    format!("{extents} {starts} {files}")
}

struct Text {
    text: String,
    plan: Model,
    /// How often each call was answered with each number.
    seen: [[usize; 26]; CALLS.len()],
}

impl Text {
    /// The answer, and what is seen of the plan: held and free, the last number, how many regions, and
    /// a tag's totals.
    fn told(&mut self, place: usize, answer: Answer, tag: u32) {
        self.seen[place][answer.refusal() as usize] += 1;
        let (kind, value) = match answer {
            Answer::Done => (0, 0),
            Answer::At(at) => (1, at),
            Answer::Refused(number) => (2, number),
        };
        let (held, free) = (self.plan.held(), self.plan.free());
        let (last, count) = (self.plan.last_number(), self.plan.count());
        let (logical, physical) = self.plan.totals(tag);
        self.text +=
            &format!("{kind} {value}, {held} {free} {last} {count}, {logical} {physical}\n");
    }

    /// Answers whether it was accepted.
    fn open(&mut self, opening: &Opening) -> bool {
        assert!(opening.scratch <= SCRATCH);
        let Opening {
            limits,
            records,
            extents,
            scratch,
            ..
        } = opening;
        let answer = self.plan.open(opening);
        let tag = records.last().map_or(7, |r| r.tag);
        let kept = records.iter().take(REGIONS).flat_map(record);
        self.text += &format!(
            "open 1: {} {} {}, {tag}, {scratch}, {}, {}, {}, {} = ",
            limits.log2_block,
            limits.table_end,
            limits.file_len,
            lent(opening.lent),
            records.len(),
            list(extents),
            list(&kept.collect::<Vec<_>>())
        );
        self.told(0, answer, tag);
        answer.accepted()
    }

    fn call(&mut self, call: &Call, lists: Places) {
        let place = call.place();
        let mut text = Vec::new();
        let mut tag = None;
        let arguments = match *call {
            Call::Create {
                id,
                tag: t,
                ref name,
            } => {
                if name.len() > NAME {
                    return;
                }
                text = bytes(name);
                tag = Some(t);
                [id, t.into(), 0]
            }
            Call::Grow { id } | Call::Drop { id } => [id, 0, 0],
            Call::Publish { id, len } => [id, len, 0],
            Call::Cap { tag: t, max } => {
                tag = Some(t);
                [t.into(), max.is_some().into(), max.unwrap_or(0)]
            }
            Call::Locate { id, pos, n } => [id, pos, n],
        };
        let tag = tag.unwrap_or_else(|| {
            let found = (0..self.plan.count()).map(|i| self.plan.region(i).0);
            let found = found.into_iter().find(|r| r.number == arguments[0]);
            found.map_or(7, |r| r.tag)
        });
        let answer = self.plan.ask(call, lists);
        self.text += &format!(
            "{} {}:{}, {tag}, {}, {} = ",
            CALLS[place].0,
            place + 1,
            words(&arguments),
            lent(lists),
            list(&text)
        );
        self.told(place, answer, tag);
    }

    /// The first regions as they are handed out.
    fn regions(&mut self, most: usize) {
        for i in 0..self.plan.count().min(most) {
            let (r, extents) = self.plan.region(i);
            self.text += &format!(
                "region {LOOK}: {} ={}, {},{}\n",
                r.number,
                words(&numbers(&r)),
                list(&bytes(r.name.text())),
                words(&flat(&extents))
            );
        }
    }

    fn case(&mut self, case: &Case) {
        if self.open(&case.opening.opening()) {
            for (call, lists) in case.calls() {
                self.call(&call, lists);
            }
            self.regions(3);
        }
    }
}

fn list_of(opening: Told, calls: &[ToldCall]) -> Case {
    let calls = calls.concat();
    Case { opening, calls }
}

/// Lists that come to the limits of regions, extents, tags, caps, the last number and the lent lists.
fn limits(random: &mut Random) -> Vec<Case> {
    let longest = || Told::empty(12, 1, LONGEST);
    let create = |id| plain(CREATE, id, id % 5, named(id + 1, 4));
    let regions: Vec<_> = (0..=REGIONS as u64).map(create).collect();
    let mut grows = vec![create(1), create(2)];
    grows.extend((0..=EXTENTS).map(|_| plain(GROW, 1, 0, 0)));
    grows.extend([16, 17, 1 << 20].map(|k| plain(PUBLISH, 1, 4096 * k, 0)));
    grows.extend([(65_535, 1), (65_536, 1), (65_535, 2)].map(|(p, n)| plain(LOCATE, 1, p, n)));
    let tags: Vec<_> = (0..=TAGS as u64).map(|t| plain(SET_CAP, t, t, 0)).collect();
    let mut caps = Vec::new();
    for max in [8191, 8192, 73_727, 73_728] {
        let call = |call| plain(call, 1, 0, 0);
        caps.extend([plain(SET_CAP, 1, max, 0), create(1), call(GROW)]);
    }
    let mut last = of_counts(&[1], 12, random);
    last.records[0].0.entry.footprint_seq = u64::MAX - 1;
    last.limits.file_len = LONGEST;
    let mut short = vec![create(1)];
    for list in 0..3 {
        for distance in 2..4 {
            for call in [create(2), plain(GROW, 1, 0, 0), plain(DROP, 2, 0, 0)] {
                let mut call = call;
                call[4] = lent_by(list, distance);
                short.push(call);
            }
            let mut locate = plain(LOCATE, 1, 0, 0);
            locate[4] = lent_by(list, distance);
            short.push(locate);
        }
    }
    vec![
        list_of(longest(), &regions),
        list_of(longest(), &grows),
        list_of(longest(), &tags),
        list_of(longest(), &caps),
        list_of(last, &[create(100), create(101)]),
        list_of(longest(), &short),
    ]
}

/// Opens that are refused, up to a few with each number.
fn refused(text: &mut Text, random: &mut Random) {
    for round in 0..2000 {
        let mut told = drawn(1 + random.below(2) as usize, 3, random);
        spoil(&mut told, 1 + round % 15, random);
        let opening = told.opening();
        let number = Model::new(None).open(&opening).refusal() as usize;
        if text.seen[0][number] < 3 && opening.scratch <= SCRATCH && opening.records.len() < 4 {
            text.open(&opening);
        }
    }
}

pub fn sample(random: &mut Random) -> String {
    let mut text = Text {
        text: String::from(
            "-- The plan: an open or a call, a tag, what is lent = the answer, held and free, the last number, how many regions, the tag's totals.\n",
        ),
        plan: Model::new(None),
        seen: [[0; 26]; CALLS.len()],
    };
    for case in limits(random) {
        text.case(&case);
    }
    refused(&mut text, random);
    for _ in 0..9 {
        text.case(&calls(empty(random), 30, random));
        let n = 1 + random.below(3) as usize;
        text.case(&calls(drawn(n, 4, random), 20, random));
    }
    text.case(&calls(of_counts(&[1; REGIONS], 12, random), 6, random));
    text.case(&calls(of_counts(&[EXTENTS; 2], 13, random), 6, random));
    for _ in 0..3 {
        text.case(&calls(of_counts(&[3; 30], 12, random), 20, random));
    }
    for ((name, can), seen) in CALLS.iter().zip(&text.seen) {
        let never = can.iter().find(|k| seen[**k] == 0);
        assert!(never.is_none(), "no {name} is answered with {never:?}");
    }
    text.text
}

//! Our plan: the library that recorders link, on an object between guard slots. It is lent whole; lists of
//! another length are lent to the calls of crates/plan_exports.

use super::call::{Answer, EXTENTS, Entry, Header, Name, Opening, Places, REGIONS, Range, Record};
use super::many::Many;
use super::side::Side;
use crate::flat::pairs;
use crate::lent::Lent;
use fundravai::header::{self, Object, Reply};
use ours::plan::{self, Calls, Container, Lists, Plan, Positions};

/// How many numbers stand in front of the object and behind it.
const AROUND: usize = 8;

/// What the lists hold before a call writes to them.
fn filling(i: usize) -> u64 {
    0xfeed_face_0000_0000 + i as u64
}

/// Extents, starts and file offsets.
type Slots = [Vec<u64>; 3];

#[derive(Clone, PartialEq)]
#[repr(C)]
struct Guarded {
    front: [u64; AROUND],
    container: Container,
    behind: [u64; AROUND],
}

impl Guarded {
    fn new() -> Box<Self> {
        // Numbers and a bool that is false.
        let plan: Plan = unsafe { std::mem::zeroed() };
        Box::new(Self {
            front: [filling(1); AROUND],
            container: Container {
                plan,
                extents: std::array::from_fn(filling),
                starts: std::array::from_fn(filling),
                files: std::array::from_fn(filling),
            },
            behind: [filling(2); AROUND],
        })
    }

    fn lists(&self) -> [&[u64]; 3] {
        let c = &self.container;
        [&c.extents, &c.starts, &c.files]
    }
}

/// What a call may write.
#[derive(Clone, Copy, PartialEq)]
enum Writes {
    Nothing,
    /// One place of each list.
    Place,
    Rows,
}

pub struct Ours {
    opened: bool,
    held: Box<Guarded>,
    /// The object as it was before the last call, unless it is only timed.
    before: Option<Box<Guarded>>,
    trespass: Option<String>,
}

fn answer(reply: Reply) -> Answer {
    match reply.kind {
        0 => Answer::Done,
        1 => Answer::At(reply.value),
        2 => Answer::Refused(reply.value),
        kind => panic!("a reply of kind {kind}"),
    }
}

fn flat(r: &Record) -> header::Record {
    let (e, h) = (&r.entry, &r.header);
    header::Record {
        number: r.number,
        tag: r.tag,
        name: r.name.bytes,
        name_len: r.name.len,
        kind: e.kind,
        flags: e.flags,
        extent_count: e.extent_count,
        header_a: e.header_a,
        header_b: e.header_b,
        span_start: e.span_start,
        span_end: e.span_end,
        data_size: e.data_size,
        capacity: e.capacity,
        footprint_seq: e.footprint_seq,
        hnumber: h.region_id,
        hkind: h.kind,
        hflags: h.flags,
        hready: h.ready,
        hlog2: h.log2_block,
        hcount: h.extent_count,
    }
}

fn record(r: &header::Record) -> Record {
    Record {
        number: r.number,
        tag: r.tag,
        name: Name {
            bytes: r.name,
            len: r.name_len,
        },
        entry: Entry {
            kind: r.kind,
            flags: r.flags,
            extent_count: r.extent_count,
            header_a: r.header_a,
            header_b: r.header_b,
            span_start: r.span_start,
            span_end: r.span_end,
            data_size: r.data_size,
            capacity: r.capacity,
            footprint_seq: r.footprint_seq,
        },
        header: Header {
            region_id: r.hnumber,
            kind: r.hkind,
            flags: r.hflags,
            ready: r.hready,
            log2_block: r.hlog2,
            extent_count: r.hcount,
        },
    }
}

/// The places of a list that have changed: pairs of the extents.
fn changed(list: usize, before: &[u64], after: &[u64]) -> Vec<usize> {
    let width = [2, 1, 1][list];
    let places = before.chunks(width).zip(after.chunks(width));
    let changed = places.enumerate().filter(|(_, (a, b))| a != b);
    changed.map(|(i, _)| i).collect()
}

/// What a call changed of the lists that it must not.
fn trespassed(old: [&[u64]; 3], new: [&[u64]; 3], writes: Writes) -> Option<String> {
    for (k, (old, new)) in old.into_iter().zip(new).enumerate() {
        if old == new {
            continue;
        }
        let places = changed(k, old, new);
        let most = [0, 1, REGIONS * EXTENTS][writes as usize];
        let behind = places.iter().any(|p| *p >= REGIONS * EXTENTS);
        if places.len() > most || behind {
            let list = ["extents", "starts", "files"][k];
            let (n, first) = (places.len(), places[0]);
            return Some(format!("{n} places of the {list}, the first {first}"));
        }
    }
    None
}

fn slices(lists: &Slots) -> [&[u64]; 3] {
    let [extents, starts, files] = lists;
    [extents, starts, files]
}

impl Ours {
    /// What the calls write is looked at after each.
    pub fn new() -> Self {
        let held = Guarded::new();
        Self {
            opened: false,
            before: Some(held.clone()),
            held,
            trespass: None,
        }
    }

    /// Nothing is looked at.
    pub fn timed() -> Self {
        Self {
            before: None,
            ..Self::new()
        }
    }

    fn container(&self) -> &Container {
        assert!(self.opened, "it is opened");
        &self.held.container
    }

    fn container_mut(&mut self) -> &mut Container {
        assert!(self.opened, "it is opened");
        &mut self.held.container
    }

    fn object(&self) -> &Object {
        self.container().object()
    }

    fn object_mut(&mut self) -> &mut Object {
        self.container_mut().object_mut()
    }

    pub fn same_lists(&self, other: &Self) -> bool {
        self.held.lists() == other.held.lists()
    }

    /// Notes what a call wrote that it must not: a refused one any number of the object.
    fn look(&mut self, name: &str, answer: Answer, writes: Writes) -> Answer {
        let Some(before) = &mut self.before else {
            return answer;
        };
        if *before == self.held {
            return answer;
        }
        let refused = matches!(answer, Answer::Refused(_));
        let around = before.front != self.held.front || before.behind != self.held.behind;
        let wrote = match (refused, around) {
            (true, _) => Some(String::from("the object")),
            (_, true) => Some(String::from("what stands around the object")),
            _ => trespassed(before.lists(), self.held.lists(), writes),
        };
        if let Some(what) = wrote {
            self.trespass = Some(format!("{name}, answered {answer:?}, changes {what}"));
        }
        before.clone_from(&self.held);
        answer
    }

    /// The lists with so many numbers each.
    fn lists(&self, lent: Places) -> Slots {
        let lent = [lent.extents, lent.starts, lent.files];
        let mut lists = self.held.lists().map(Vec::from);
        for (list, n) in lists.iter_mut().zip(lent) {
            let have = list.len();
            list.truncate(n);
            list.extend((have..n).map(filling));
        }
        lists
    }

    /// What a call left of such lists.
    fn keep(&mut self, name: &str, answer: Answer, writes: Writes, [old, new]: [Slots; 2]) {
        let writes = match answer {
            Answer::Refused(_) => Writes::Nothing,
            Answer::At(_) | Answer::Done => writes,
        };
        if let Some(what) = trespassed(slices(&old), slices(&new), writes) {
            self.trespass = Some(format!("{name}, answered {answer:?}, changes {what}"));
        }
        let c = &mut self.held.container;
        let lists: [&mut [u64]; 3] = [&mut c.extents, &mut c.starts, &mut c.files];
        for (list, new) in lists.into_iter().zip(new) {
            let n = list.len().min(new.len());
            list[..n].copy_from_slice(&new[..n]);
        }
    }

    /// A call by its code with lists of another length.
    fn with_lists(
        &mut self,
        (name, code): (&str, u64),
        lent: Places,
        writes: Writes,
        (id, tag, text): (u64, u32, &[u8]),
    ) -> Answer {
        let old = self.lists(lent);
        let mut new = old.clone();
        let calls = Calls {
            codes: &[code],
            ids: &[id],
            numbers: &[0],
            tag,
            name: text,
        };
        let (accepted, last) =
            plan::call_each(&mut self.container_mut().plan, lend(&mut new), calls);
        let answer = answer(last);
        assert_eq!(accepted == 1, answer.accepted());
        self.keep(name, answer, writes, [old, new]);
        answer
    }
}

fn lend(lists: &mut Slots) -> Lists<'_> {
    let [extents, starts, files] = lists;
    Lists {
        extents,
        starts,
        files,
    }
}

impl Side for Ours {
    fn open(&mut self, opening: &Opening) -> Answer {
        let records: Vec<header::Record> = opening.records.iter().map(flat).collect();
        let limits = &opening.limits;
        let mut scratch = Lent::new(&vec![7; opening.scratch]);
        let given = plan::Opening {
            log2_block: limits.log2_block,
            table_end: limits.table_end,
            file_len: limits.file_len,
            records: &records,
            listed: &opening.extents,
        };
        let answer = if opening.lent == Places::ALL {
            answer(plan::open(&mut self.held.container, given, scratch.list()))
        } else {
            let old = self.lists(opening.lent);
            let mut new = old.clone();
            let plan = &mut self.held.container.plan;
            let answer = answer(plan::open_with(given, scratch.list(), lend(&mut new), plan));
            self.keep("open", answer, Writes::Rows, [old, new]);
            answer
        };
        self.opened |= answer.accepted();
        if scratch.back().len() != opening.scratch {
            self.trespass = Some(String::from("open writes outside its scratch"));
        }
        self.look("open", answer, Writes::Rows)
    }

    fn create(&mut self, id: u64, tag: u32, name: &[u8], lent: Places) -> Answer {
        let answer = if lent == Places::ALL {
            answer(header::create(self.object_mut(), id, tag, name))
        } else {
            self.with_lists(("create", 0), lent, Writes::Nothing, (id, tag, name))
        };
        self.look("create", answer, Writes::Nothing)
    }

    fn grow(&mut self, id: u64, lent: Places) -> Answer {
        let answer = if lent == Places::ALL {
            answer(header::grow(self.object_mut(), id))
        } else {
            self.with_lists(("grow", 1), lent, Writes::Place, (id, 0, b""))
        };
        self.look("grow", answer, Writes::Place)
    }

    fn publish(&mut self, id: u64, len: u64) -> Answer {
        let answer = answer(header::publish(self.object_mut(), id, len));
        self.look("publish", answer, Writes::Nothing)
    }

    fn drop(&mut self, id: u64, lent: Places) -> Answer {
        let answer = if lent == Places::ALL {
            answer(header::drop(self.object_mut(), id))
        } else {
            self.with_lists(("drop", 3), lent, Writes::Nothing, (id, 0, b""))
        };
        self.look("drop", answer, Writes::Nothing)
    }

    fn cap(&mut self, tag: u32, max: Option<u64>) -> Answer {
        let (capped, limit) = (max.is_some(), max.unwrap_or(0));
        let answer = answer(header::cap(self.object_mut(), tag, capped, limit));
        self.look("cap", answer, Writes::Nothing)
    }

    fn locate(&mut self, id: u64, pos: u64, n: u64, lent: Places) -> Answer {
        if lent == Places::ALL {
            return answer(header::locate(self.object(), id, pos, n));
        }
        let [_, starts, files] = self.lists(lent);
        let one = Positions {
            ids: &[id],
            positions: &[pos],
        };
        let mut told = [0];
        let plan = &self.container().plan;
        match plan::locate_each(plan, (&starts, &files), one, n, &mut told) {
            1 => Answer::At(told[0]),
            _ => Answer::Refused(told[0]),
        }
    }

    fn held(&self) -> u64 {
        header::held(self.object())
    }

    fn free(&self) -> u64 {
        header::free(self.object())
    }

    fn totals(&self, tag: u32) -> (u64, u64) {
        let object = self.object();
        (header::logical(object, tag), header::physical(object, tag))
    }

    fn last_number(&self) -> u64 {
        header::last_number(self.object())
    }

    fn count(&self) -> usize {
        header::region_count(self.object())
    }

    fn region(&self, i: usize) -> (Record, Vec<Range>) {
        let mut out = Lent::new(&[7; 2 * EXTENTS]);
        let mut filed = header::Record::default();
        let reply = header::region(self.object(), i, &mut filed, out.list());
        assert_eq!(answer(reply), Answer::Done);
        let out = out.back();
        let n = 2 * usize::from(filed.extent_count);
        assert!(out.len() == 2 * EXTENTS && out[n..].iter().all(|x| *x == 7));
        if n > 0 {
            // One place too few.
            let (mut other, mut few) = (header::Record::default(), vec![7; n - 2]);
            let reply = header::region(self.object(), i, &mut other, &mut few);
            assert_eq!(answer(reply), Answer::Refused(1));
            assert!(other == header::Record::default() && few.iter().all(|x| *x == 7));
        }
        (record(&filed), pairs(&out[..n]))
    }

    fn trespass(&mut self) -> Option<String> {
        self.trespass.take()
    }

    fn many(&mut self, many: &Many) -> u64 {
        let c = self.container_mut();
        if many.locates {
            let positions = Positions {
                ids: &many.ids,
                positions: &many.numbers,
            };
            let mut bytes = vec![0; many.ids.len()];
            return plan::locate_each(&c.plan, (&c.starts, &c.files), positions, 1, &mut bytes);
        }
        let calls = Calls {
            codes: &many.codes,
            ids: &many.ids,
            numbers: &many.numbers,
            tag: many.tag,
            name: &many.name,
        };
        let lists = Lists {
            extents: &mut c.extents,
            starts: &mut c.starts,
            files: &mut c.files,
        };
        plan::call_each(&mut c.plan, lists, calls).0
    }
}

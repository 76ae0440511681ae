//! One map, by the Rust and by ours.

use crate::flat::{flat, pairs};
use crate::lent::Lent;
use oracle::map::{Map, refusable};
use ours::map::{Map as Numbers, Run};

const MAX: u128 = u64::MAX as u128;

/// Document 01's limit on a map's extents and on its room.
pub const MOST: usize = 4084;

/// What stands in the numbers that `from_extents` is to fill.
const BEFORE: Numbers = Numbers {
    first: 7_000_001,
    data: 7_000_002,
    capacity: 7_000_003,
    count: 7_000_004,
    room: 7_000_005,
};

#[derive(Debug)]
pub enum Call {
    FromExtents {
        extents: Vec<u64>,
        len: u64,
    },
    WithRoom {
        asked: usize,
    },
    PublishLen {
        len: u64,
    },
    Extend {
        file: u64,
        n: u64,
    },
    Locate {
        pos: u64,
        n: u64,
    },
    /// Among the map's runs, as records.
    LocateAmong {
        pos: u64,
        n: u64,
    },
    Extents {
        out: usize,
    },
}

/// What a call answers: its refusal, its value or 0, the numbers that it leaves (a reader none) and
/// the list that `Extents` fills. Where the lists that a map has are not as they should be, `slots`
/// has those slots with what they hold, first of starts, then of files.
#[derive(Debug, Default, PartialEq)]
pub struct Answer {
    pub refusal: u64,
    pub value: u64,
    pub numbers: Option<Numbers>,
    pub out: Vec<u64>,
    pub slots: [Vec<(usize, u64)>; 2],
}

/// The answer that is due, and ours.
pub type Difference = Box<[Answer; 2]>;

/// A map that both sides hold, with the lists of starts and files that ours is lent.
pub struct Sides {
    rust: Map,
    /// What the Rust's map comes to in our numbers and lists.
    pub due: Numbers,
    pub due_lists: [Vec<u64>; 2],
    ours: Numbers,
    lent: [Lent; 2],
}

impl Sides {
    /// The map without extents, with these lists of starts and files.
    pub fn new(lists: [Vec<u64>; 2]) -> Self {
        let none = Numbers {
            first: 0,
            data: 0,
            capacity: 0,
            count: 0,
            room: 0,
        };
        Self {
            rust: Map::from_extents(&[], 0),
            due: none,
            lent: lists.each_ref().map(|l| Lent::new(l)),
            due_lists: lists,
            ours: none,
        }
    }

    /// The answer that is due and ours, if they differ; else the refusal. Lists of so many places
    /// are lent, from the front of those that the map has.
    pub fn ask(&mut self, call: &Call, places: [usize; 2]) -> Result<u64, Difference> {
        let due = self.ask_due(call, places);
        let ours = self.ask_ours(call, places);
        let changes = !matches!(
            call,
            Call::Locate { .. } | Call::LocateAmong { .. } | Call::Extents { .. }
        );
        if due == ours && (!changes || self.lists_alike()) {
            return Ok(due.refusal);
        }
        Err(self.with_lists(due, ours))
    }

    /// Whether the lists are as they are due.
    fn lists_alike(&self) -> bool {
        let mut both = self.lent.iter().zip(&self.due_lists);
        both.all(|(lent, due)| lent.holds(due))
    }

    fn with_lists(&self, mut due: Answer, mut ours: Answer) -> Difference {
        for (k, lent) in self.lent.iter().enumerate() {
            let wanted = &self.due_lists[k];
            let found = lent.clone().back();
            for (i, (&x, &y)) in wanted.iter().zip(&found).enumerate() {
                if x != y {
                    due.slots[k].push((i, x));
                    ours.slots[k].push((i, y));
                }
            }
        }
        Box::new([due, ours])
    }

    /// The numbers and lists that are due and ours, if they differ: the readers change nothing.
    pub fn rest(&self) -> Result<(), Difference> {
        if self.due == self.ours && self.lists_alike() {
            return Ok(());
        }
        let [due, ours] = [self.due, self.ours].map(|n| changed(0, n));
        Err(self.with_lists(due, ours))
    }

    /// Document 01's refusals 1, 11 and 12, which the Rust does not have: the lowest, or 0.
    fn refused_before(&self, call: &Call, places: [usize; 2]) -> u64 {
        let fewer_than = |n: usize| places.iter().any(|&p| p < n);
        let map = &self.due;
        let passes = |a: u64, b: u64| u128::from(a) + u128::from(b) > MAX;
        match *call {
            Call::FromExtents { ref extents, .. } => {
                let n = extents.len() / 2;
                if extents.len() % 2 == 1 || n > MOST || fewer_than(n) {
                    return 1;
                }
                let mut sum = 0;
                for (offset, len) in pairs(extents) {
                    if passes(offset, len) {
                        return 11;
                    }
                    if passes(sum, len) {
                        return 12;
                    }
                    sum += len;
                }
                0
            }
            Call::WithRoom { asked } => u64::from(asked > MOST || fewer_than(asked.max(map.room))),
            Call::PublishLen { .. } | Call::LocateAmong { .. } => 0,
            Call::Extend { .. } | Call::Locate { .. } if fewer_than(map.room) => 1,
            Call::Extend { file, n } if n == 0 || passes(file, n) => 11,
            Call::Extend { n, .. } if passes(map.capacity, n) => 12,
            Call::Extend { .. } | Call::Locate { .. } => 0,
            Call::Extents { out } => u64::from(fewer_than(map.room) || out / 2 < map.count + 1),
        }
    }

    /// The answer that is due. The Rust is asked where document 01 does not refuse before it.
    pub fn ask_due(&mut self, call: &Call, places: [usize; 2]) -> Answer {
        let before = self.refused_before(call, places);
        let answered = if before == 0 {
            self.ask_rust(call)
        } else {
            Err(before)
        };
        let refusal = answered.err().unwrap_or(0);
        let value = answered.unwrap_or(0);
        match *call {
            Call::FromExtents { .. } if refusal != 0 => changed(refusal, BEFORE),
            Call::Locate { .. } | Call::LocateAmong { .. } => read(refusal, value, Vec::new()),
            Call::Extents { out } => {
                let mut list = slots(out);
                if refusal == 0 {
                    let runs = flat(&self.rust.extents().collect::<Vec<_>>());
                    list[..runs.len()].copy_from_slice(&runs);
                }
                read(refusal, value, list)
            }
            _ => changed(refusal, self.due),
        }
    }

    /// What the Rust answers; after a change `due` and its lists follow. The Rust's room is private:
    /// it is the one that document 01 says.
    pub fn ask_rust(&mut self, call: &Call) -> Result<u64, u64> {
        match *call {
            Call::FromExtents { ref extents, len } => {
                self.rust = refusable(|| Map::from_extents(&pairs(extents), len))?;
                self.follow();
                self.due.room = self.due.count;
            }
            Call::WithRoom { asked } => {
                let map = std::mem::replace(&mut self.rust, Map::from_extents(&[], 0));
                self.rust = map.with_room(asked);
                self.follow();
                self.due.room = self.due.room.max(asked);
            }
            Call::PublishLen { len } => {
                refusable(|| self.rust.publish_len(len))?;
                self.follow();
            }
            Call::Extend { file, n } => {
                refusable(|| self.rust.extend(file, n))?;
                self.follow();
            }
            Call::Locate { pos, n } | Call::LocateAmong { pos, n } => {
                return refusable(|| self.rust.locate(pos, n));
            }
            Call::Extents { .. } => return Ok(self.rust.extents().count() as u64),
        }
        Ok(0)
    }

    /// Reads the Rust's map, but for its room.
    fn follow(&mut self) {
        let [starts, files] = &mut self.due_lists;
        let mut end = 0;
        for (k, (file, len)) in self.rust.extents().enumerate() {
            if k == 0 {
                self.due.first = file;
            } else {
                starts[k - 1] = end;
                files[k - 1] = file;
            }
            end += len;
            self.due.count = k;
        }
        self.due.data = self.rust.len();
        self.due.capacity = self.rust.capacity();
    }

    pub fn ask_ours(&mut self, call: &Call, places: [usize; 2]) -> Answer {
        if let Call::LocateAmong { pos, n } = *call {
            let (refusal, at) = ours::map::locate_among(&self.records(), self.ours.data, pos, n);
            return read(refusal, at, Vec::new());
        }
        let [starts, files] = &mut self.lent;
        let starts = &mut starts.list()[..places[0]];
        let files = &mut files.list()[..places[1]];
        let map = &mut self.ours;
        let refusal = match *call {
            Call::FromExtents { ref extents, len } => {
                let mut made = BEFORE;
                let refusal = ours::map::from_extents(extents, len, starts, files, &mut made);
                if refusal == 0 {
                    *map = made;
                }
                return changed(refusal, made);
            }
            Call::WithRoom { asked } => ours::map::with_room(asked, starts, files, map),
            Call::PublishLen { len } => ours::map::publish_len(len, map),
            Call::Extend { file, n } => ours::map::extend(file, n, starts, files, map),
            Call::Locate { pos, n } => {
                let (refusal, at) = ours::map::locate(map, starts, files, pos, n);
                return read(refusal, at, Vec::new());
            }
            Call::LocateAmong { .. } => unreachable!("it is asked above"),
            Call::Extents { out } => {
                let mut list = Lent::new(&slots(out));
                let (refusal, n) = ours::map::runs(map, starts, files, list.list());
                return read(refusal, n, list.back());
            }
        };
        changed(refusal, *map)
    }

    /// Run k's start, file offset and end, as they are due; the last run where there are fewer.
    pub fn run(&self, k: usize) -> (u64, u64, u64) {
        let [starts, files] = &self.due_lists;
        let count = self.due.count;
        let k = k.min(count);
        let (start, file) = match k {
            0 => (0, self.due.first),
            _ => (starts[k - 1], files[k - 1]),
        };
        let end = if k < count {
            starts[k]
        } else {
            self.due.capacity
        };
        (start, file, end)
    }

    /// The runs as they are due.
    pub fn records(&self) -> Vec<Run> {
        let record = |k| {
            let (start, file, end) = self.run(k);
            let len = end - start;
            Run { start, file, len }
        };
        (0..=self.due.count).map(record).collect()
    }

    /// Which run holds a position.
    pub fn run_of(&self, pos: u64) -> usize {
        self.due_lists[0][..self.due.count].partition_point(|&start| start <= pos)
    }
}

fn changed(refusal: u64, numbers: Numbers) -> Answer {
    Answer {
        refusal,
        numbers: Some(numbers),
        ..Answer::default()
    }
}

fn read(refusal: u64, value: u64, out: Vec<u64>) -> Answer {
    Answer {
        refusal,
        value,
        out,
        ..Answer::default()
    }
}

/// So many slots, with a different number in each.
fn slots(n: usize) -> Vec<u64> {
    (3_000_000..).take(n).collect()
}

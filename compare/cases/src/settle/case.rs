//! Sets of records told in numbers, and the lists that they come to.

use crate::random::Random;
use crate::shrink::{at_distance, deadline, distance, places, shrink_until};

/// What a name has in its list, whatever its length.
pub const NAME: usize = 24;

/// The length that stands for no name.
pub const NO_NAME: u8 = 255;

#[derive(Clone)]
pub struct Record {
    pub usable: bool,
    pub seq: u64,
    /// The length of its name, and the 24 bytes that begin with the name.
    pub len: u8,
    pub name: [u8; NAME],
    pub ranges: Vec<(u64, u64)>,
    /// The count that is told of its ranges, where it is not theirs.
    pub count: Option<u64>,
}

/// A range of the record before it, or a record: its sequence number, its name's length, the name's
/// 24 bytes, how far its count is from that of its ranges.
type Told = [u64; WIDTH];

const WIDTH: usize = 7;
const RANGE: u64 = 0;
const USABLE: u64 = 1;
const UNAVAILABLE: u64 = 2;

/// Which number of `sizes` tells what.
pub const UNAVAILABLE_SIZES: usize = 6;
pub const COUNT: usize = 0;
pub const SEQS: usize = 1;
pub const COUNTS: usize = 2;
pub const RANGES: usize = 3;
pub const LENS: usize = 4;
pub const NAMES: usize = 5;
pub const MARKS: usize = 12;
pub const SCRATCH: usize = 13;
const FILLING: usize = 14;

#[derive(Clone)]
pub struct Case {
    records: Vec<u64>,
    /// How far the count of records and the lengths of the lists are from those that are needed, for
    /// usable and for unavailable records, for marks and for scratch; then what fills the slots that
    /// no record does.
    pub sizes: Vec<u64>,
}

/// The lists of one kind of records.
#[derive(Debug, Default)]
pub struct Kind {
    pub count: usize,
    pub seqs: Vec<u64>,
    pub counts: Vec<u64>,
    pub ranges: Vec<u64>,
    pub lens: Vec<u8>,
    pub names: Vec<u8>,
}

/// What a call is given.
pub struct Lists {
    pub usable: Kind,
    pub unavailable: Kind,
    pub marks: Vec<u8>,
    pub scratch: Vec<u64>,
}

impl Case {
    /// The records in lists just long enough.
    pub fn new(records: &[Record], filling: u64) -> Self {
        let mut told = Vec::new();
        for r in records {
            let word = |k: usize| {
                let bytes = r.name[8 * k..][..8].try_into().expect("eight bytes");
                u64::from_le_bytes(bytes)
            };
            let kind = if r.usable { USABLE } else { UNAVAILABLE };
            let count = r.ranges.len() as u64;
            let off = distance(r.count.unwrap_or(count), count);
            let record: Told = [kind, r.seq, r.len.into(), word(0), word(1), word(2), off];
            told.extend(record);
            for &(offset, len) in &r.ranges {
                let range: Told = [RANGE, offset, len, 0, 0, 0, 0];
                told.extend(range);
            }
        }
        let mut sizes = vec![0; FILLING + 1];
        sizes[FILLING] = filling;
        Self {
            records: told,
            sizes,
        }
    }

    pub fn lists(&self) -> Lists {
        let mut kinds = [Kind::default(), Kind::default()];
        let mut k = 0;
        for told in self.records.chunks_exact(WIDTH) {
            if told[0] == RANGE {
                // a range without a record is in no count
                kinds[k].ranges.extend(&told[1..3]);
                if let Some(count) = kinds[k].counts.last_mut() {
                    *count = count.wrapping_add(1);
                }
                continue;
            }
            k = usize::from(told[0] != USABLE);
            kinds[k].seqs.push(told[1]);
            kinds[k].lens.push(told[2] as u8);
            kinds[k]
                .names
                .extend(told[3..6].iter().flat_map(|w| w.to_le_bytes()));
            kinds[k].counts.push(at_distance(told[6], 0));
        }
        let [mut usable, mut unavailable] = kinds;
        let marks = usable.seqs.len();
        let scratch = 8 * (usable.ranges.len() + unavailable.ranges.len());
        let random = &mut Random::new(self.sizes[FILLING]);
        usable.resize(&self.sizes, random);
        unavailable.resize(&self.sizes[UNAVAILABLE_SIZES..], random);
        Lists {
            usable,
            unavailable,
            marks: bytes(places(self.sizes[MARKS], marks), random),
            scratch: numbers(places(self.sizes[SCRATCH], scratch), random),
        }
    }

    /// The smallest case on which the two sides still differ, or as small a one as is found in time.
    pub fn smallest(&self, differs: fn(&Self) -> bool) -> Self {
        let end = deadline();
        let Self {
            mut records,
            mut sizes,
        } = self.clone();
        let still = |records: &[u64], sizes: &[u64]| {
            differs(&Self {
                records: records.to_vec(),
                sizes: sizes.to_vec(),
            })
        };
        for _ in 0..3 {
            records = shrink_until(end, records, WIDTH, |r| still(r, &sizes));
            let told = apart(&records);
            let told = shrink_until(end, told, 0, |t| still(&together(t), &sizes));
            records = together(&told);
            sizes = shrink_until(end, sizes, 0, |s| still(&records, s));
        }
        Self { records, sizes }
    }
}

/// The same records, each range's offset told by its distance from the end before it, which it then
/// follows.
fn apart(records: &[u64]) -> Vec<u64> {
    let mut told = records.to_vec();
    let mut end = 0u64;
    for range in told.chunks_exact_mut(WIDTH).filter(|t| t[0] == RANGE) {
        let offset = range[1];
        range[1] = distance(offset, end);
        end = offset.wrapping_add(range[2]);
    }
    told
}

fn together(told: &[u64]) -> Vec<u64> {
    let mut records = told.to_vec();
    let mut end = 0u64;
    for range in records.chunks_exact_mut(WIDTH).filter(|t| t[0] == RANGE) {
        range[1] = at_distance(range[1], end);
        end = range[1].wrapping_add(range[2]);
    }
    records
}

impl Kind {
    /// Lengthens or shortens each list as the sizes tell.
    fn resize(&mut self, sizes: &[u64], random: &mut Random) {
        let n = self.seqs.len();
        self.count = at_distance(sizes[COUNT], n as u64) as usize;
        let mut list = |s: &mut Vec<u64>, size: u64| {
            let end = places(size, s.len());
            s.extend(numbers(end.saturating_sub(s.len()), random));
            s.truncate(end);
        };
        list(&mut self.seqs, sizes[SEQS]);
        list(&mut self.counts, sizes[COUNTS]);
        list(&mut self.ranges, sizes[RANGES]);
        let mut list = |s: &mut Vec<u8>, size: u64| {
            let end = places(size, s.len());
            s.extend(bytes(end.saturating_sub(s.len()), random));
            s.truncate(end);
        };
        list(&mut self.lens, sizes[LENS]);
        list(&mut self.names, sizes[NAMES]);
    }
}

fn numbers(n: usize, random: &mut Random) -> Vec<u64> {
    let mask = [0, 3, u64::MAX][random.below(3) as usize];
    (0..n).map(|_| random.next() & mask).collect()
}

fn bytes(n: usize, random: &mut Random) -> Vec<u8> {
    let mask = [3, 31, 255][random.below(3) as usize];
    (0..n).map(|_| random.next() as u8 & mask).collect()
}

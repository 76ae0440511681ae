//! Records for `check_region`: usable regions, and what spoils them.

use crate::flat::{flat, pairs};
use crate::random::Random;
use ours::Record;

const MAX: u64 = u64::MAX;

/// What `check_region` is lent: a record, the extents that its header lists, places of scratch.
#[derive(Debug)]
pub struct Case {
    pub record: Record,
    pub extents: Vec<u64>,
    pub scratch: usize,
}

/// A number beside x or x itself.
fn beside(x: u64, random: &mut Random) -> u64 {
    x.wrapping_sub(1).wrapping_add(random.below(3))
}

/// 0 as often as not, else a number up to `most`.
fn slack(most: u64, random: &mut Random) -> u64 {
    match random.below(4) {
        0 => random.sized() % most.saturating_add(1),
        1 => most.min(1),
        _ => 0,
    }
}

/// A usable region of `count` extents in ascending order, which is about `reach` long if it is not
/// made of blocks.
pub fn usable(log2_block: u8, count: usize, reach: u64, random: &mut Random) -> Case {
    let block = 1u64 << log2_block;
    let pieces = count as u64 + 2;
    let most = (reach / pieces).max(1);
    // which pieces, in the order of the file, are the header blocks
    let first = random.below(pieces);
    let apart = 1 + random.below(pieces - 1);
    let blocks = match random.below(4) {
        0 => [0, 1],
        1 => [0, pieces - 1],
        _ => [first, (first + apart) % pieces],
    };
    let (touching, lengths) = (random.below(3), random.below(3));
    let mut at = random.sized() % reach;
    let (mut headers, mut extents) = (Vec::new(), Vec::new());
    for piece in 0..pieces {
        at += match touching {
            0 => 0,
            1 => slack(most, random),
            _ => random.sized() % most,
        };
        if blocks.contains(&piece) {
            at = at.next_multiple_of(block);
            headers.push(at);
            at += block;
        } else {
            let len = match lengths {
                0 => 1 + random.below(3),
                1 => (1 + random.below(8)) * block,
                _ => 1 + random.sized() % most,
            };
            extents.push((at, len));
            at += len;
        }
    }
    if random.below(8) == 0 {
        // up to the last block of a u64, or only the last extent's end
        let up = random.below(2) * ((MAX - at) / block * block);
        headers.iter_mut().for_each(|h| *h += up);
        extents.iter_mut().for_each(|e| e.0 += up);
        at += up;
        if let Some(last) = extents.last_mut().filter(|e| e.0 + e.1 == at) {
            at = MAX - random.below(2);
            last.1 = at - last.0;
        }
    }
    let capacity = extents.iter().map(|e| e.1).sum();
    let lowest = extents.iter().map(|e| e.0).chain(headers.clone()).min();
    let span_start = lowest.unwrap_or(0);
    let span_start = span_start - slack(span_start, random);
    let span_end = at + slack(MAX - at, random);
    if random.below(3) == 0 {
        headers.reverse();
    }
    let header_log2_block = if random.below(4) == 0 { 9 } else { log2_block };
    let units = capacity >> header_log2_block;
    let data_size = match random.below(3) {
        0 => 0,
        1 => units,
        _ => random.below(units + 1),
    } << header_log2_block;
    let region_id = random.sized();
    let kind = 1 + random.below(3) as u8;
    let flags = random.below(4) as u8;
    Case {
        record: Record {
            log2_block,
            table_end: span_start - slack(span_start, random),
            file_len: span_end + slack(MAX - span_end, random),
            region_id,
            kind,
            flags,
            extent_count: count as u16,
            header_a: headers[0],
            header_b: headers[1],
            span_start,
            span_end,
            data_size,
            capacity,
            footprint_seq: random.sized(),
            header_region_id: region_id,
            header_kind: kind,
            header_flags: flags,
            header_ready: true,
            header_log2_block,
            header_extent_count: count as u16,
        },
        extents: flat(&extents),
        scratch: 2 * (count + 2),
    }
}

/// A region whose extents, in a span up to 2^64 - 1, have lengths that add up to about that, with so
/// many spoils.
pub fn giant(log2_block: u8, spoils: u64, random: &mut Random) -> Case {
    let count = 2 + random.below(4) as usize;
    let mut case = usable(log2_block, count, 1 << 20, random);
    let r = &mut case.record;
    (r.table_end, r.span_start) = (0, 0);
    (r.span_end, r.file_len) = (MAX, MAX);
    let full = 1 + random.below(count as u64 - 1) as usize;
    let mut sum = 0u64;
    for i in 0..count {
        let len = if i == full {
            beside(MAX - sum, random).wrapping_add(random.below(2))
        } else {
            1 + random.sized() % (MAX / 8)
        };
        let offset = match random.below(3) {
            0 => 0,
            1 => MAX - len,
            _ => random.below((MAX - len).max(1)),
        };
        case.extents[2 * i] = offset;
        case.extents[2 * i + 1] = len;
        sum = sum.wrapping_add(len);
    }
    r.capacity = match random.below(4) {
        0 => MAX,
        1 => beside(sum, random),
        _ => sum,
    };
    r.data_size = r.data_size.min(r.capacity >> 16 << 16);
    for _ in 0..spoils {
        case.spoil(random);
    }
    case
}

impl Case {
    /// A usable region in some order, perhaps one extent ahead of its entry, with so many spoils.
    pub fn drawn(
        log2_block: u8,
        count: usize,
        reach: u64,
        spoils: u64,
        random: &mut Random,
    ) -> Self {
        let mut case = usable(log2_block, count, reach, random);
        match random.below(4) {
            0 => {}
            1 => case.extents = flat(&pairs(&case.extents).into_iter().rev().collect::<Vec<_>>()),
            2 => case.swap(count.min(2), random),
            _ => case.swap(count, random),
        }
        if case.record.kind != 3 && random.below(3) == 0 {
            case.list_more(random);
        }
        case.scratch += match random.below(8) {
            0 => 1,
            1 => random.below(40) as usize,
            2 => 1000,
            _ => 0,
        };
        for _ in 0..spoils {
            case.spoil(random);
        }
        case
    }

    fn committed(&self) -> usize {
        usize::from(self.record.extent_count).min(self.extents.len() / 2)
    }

    /// Gives so many extents a random place in the list; all of them make a random order.
    pub fn swap(&mut self, times: usize, random: &mut Random) {
        for i in 0..times {
            let n = self.extents.len() / 2;
            let j = i + random.below((n - i) as u64) as usize;
            self.extents.swap(2 * i, 2 * j);
            self.extents.swap(2 * i + 1, 2 * j + 1);
        }
    }

    /// The header lists one more extent, whatever it is.
    fn list_more(&mut self, random: &mut Random) {
        let (offset, len) = match random.below(4) {
            0 => (self.edge(random), 0),
            1 => (beside(MAX, random), beside(MAX, random)),
            _ => (self.edge(random), random.sized()),
        };
        self.extents.extend([offset, len]);
        self.record.header_extent_count = self.record.header_extent_count.saturating_add(1);
    }

    /// Where something begins or ends.
    fn edge(&self, random: &mut Random) -> u64 {
        let r = &self.record;
        let block = random.below(2) << r.log2_block.clamp(12, 16);
        let n = self.committed() as u64;
        match random.below(10) {
            0 => r.table_end,
            1 => r.file_len,
            2 => r.span_start,
            3 => r.span_end,
            4 => r.header_a.wrapping_add(block),
            5 => r.header_b.wrapping_add(block),
            _ if n == 0 => random.sized(),
            _ => {
                let i = 2 * random.below(n) as usize;
                let ends = random.below(2);
                self.extents[i].wrapping_add(ends * self.extents[i + 1])
            }
        }
    }

    /// Changes one thing, mostly by as little as makes a difference.
    fn spoil(&mut self, random: &mut Random) {
        let block = 1u64 << self.record.log2_block.clamp(12, 16);
        let unit = 1u64 << self.record.header_log2_block.clamp(9, 16);
        let edge = self.edge(random);
        let near = beside(edge, random);
        let by = 1 + random.below(2) as u16;
        let r = &mut self.record;
        match random.below(28) {
            0 => r.log2_block = log(random),
            1 => r.header_log2_block = log(random),
            2 => {
                r.log2_block = log(random);
                r.header_log2_block = r.log2_block;
            }
            3 => r.table_end = near,
            4 => r.table_end = beside(r.span_start, random),
            5 => r.file_len = near,
            6 => r.file_len = beside(r.span_end, random),
            7 => r.span_start = near,
            8 => r.span_end = near,
            9 => {
                r.span_end = MAX;
                r.file_len = MAX;
            }
            10 => {
                // a header block a little, half a block or about a block from where one was
                let from = [r.header_a, r.header_b][random.below(2) as usize];
                let far = [0, 1, 512, block / 2, block - 1, block, block + 1];
                let far = far[random.below(7) as usize];
                let moved = [from.wrapping_add(far), from.wrapping_sub(far)];
                r.header_b = moved[random.below(2) as usize];
            }
            11 => r.header_a = edge & !(block - 1),
            12 => r.header_b = near,
            13 => std::mem::swap(&mut r.header_a, &mut r.header_b),
            14 => r.data_size = beside(r.capacity, random),
            15 => r.data_size = beside(random.below(r.capacity / unit + 1) * unit, random),
            16 => r.capacity = beside(r.capacity, random),
            17 => {
                r.capacity = random.sized();
                r.data_size = r.data_size.min(r.capacity / unit * unit);
            }
            18 => match random.below(3) {
                0 => r.header_region_id = beside(r.region_id, random),
                1 => r.header_flags ^= 1 << random.below(8),
                _ => r.header_ready = false,
            },
            19 => r.header_kind = 1 + random.below(3) as u8,
            20 => r.kind = 1 + random.below(3) as u8,
            21 => {
                r.kind = 3;
                r.header_kind = 3;
            }
            22 => match random.below(4) {
                0 => r.extent_count = r.extent_count.wrapping_add(by),
                1 => r.extent_count = r.extent_count.wrapping_sub(by),
                2 => r.header_extent_count = r.header_extent_count.wrapping_add(by),
                _ => r.header_extent_count = r.header_extent_count.wrapping_sub(by),
            },
            23 => (0..by).for_each(|_| self.list_more(random)),
            24 => {
                // the header lists fewer, or the list ends within an extent
                if random.below(4) == 0 {
                    self.extents.pop();
                } else if self.extents.len() > 1 {
                    self.extents.truncate(self.extents.len() - 2);
                    r.header_extent_count = r.header_extent_count.saturating_sub(1);
                }
            }
            25 => {
                let need = 2 * (usize::from(r.extent_count) + 2);
                self.scratch = [need - 2, need - 1, need, need + 1, 0][random.below(5) as usize];
            }
            _ => self.spoil_extent(edge, near, random),
        }
    }

    /// Changes one extent, then mostly lets the rest follow.
    fn spoil_extent(&mut self, edge: u64, near: u64, random: &mut Random) {
        let n = self.committed() as u64;
        if n == 0 {
            return;
        }
        let i = 2 * random.below(n) as usize;
        let j = 2 * random.below(n) as usize;
        let (offset, len) = (self.extents[i], self.extents[i + 1]);
        let (other, its) = (self.extents[j], self.extents[j + 1]);
        let (offset, len) = match random.below(8) {
            0 => (offset, 0),
            1 => (offset, beside(len, random)),
            2 => (offset, beside(MAX - offset, random)),
            3 => (offset, near.wrapping_sub(offset)),
            4 => (near.wrapping_sub(len), len),
            5 => (other, its),
            6 => (other.wrapping_add(its / 4), its / 2),
            _ => (if random.below(2) == 0 { edge } else { near }, len),
        };
        self.extents[i] = offset;
        self.extents[i + 1] = len;
        let sum = (0..n as usize).fold(0u64, |s, k| s.wrapping_add(self.extents[2 * k + 1]));
        let unit = 1u64 << self.record.header_log2_block.clamp(9, 16);
        let r = &mut self.record;
        if random.below(8) != 0 {
            r.capacity = sum;
            r.data_size = r.data_size.min(sum / unit * unit);
        }
        if random.below(4) != 0 {
            r.span_start = r.span_start.min(offset);
            r.table_end = r.table_end.min(offset);
            r.span_end = r.span_end.max(offset.saturating_add(len));
            r.file_len = r.file_len.max(r.span_end);
        }
    }
}

/// A block log in or beside the range, 9, or any.
fn log(random: &mut Random) -> u8 {
    match random.below(4) {
        0 => 9,
        1 => random.next() as u8,
        _ => 11 + random.below(7) as u8,
    }
}

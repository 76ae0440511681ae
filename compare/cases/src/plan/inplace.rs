//! A plan that changes its regions in place, over the Rust's own free map, region map, region check
//! and settlement. Tags have running totals.

mod check;

use super::call::{
    APPEND, Answer, EXTENTS, Entry, Header, Limits, NAME, Name, Opening, Places, REGIONS, Range,
    Record, SLOT, TAGS,
};
use super::side::Side;
use oracle::free::Free;
use oracle::map::{Map, refusable};

struct Region {
    /// Its counts, data size and capacity are read elsewhere.
    record: Record,
    extents: Vec<Range>,
    map: Map,
}

impl Region {
    /// Room for 61 runs, an empty first one included.
    fn new(record: Record, extents: &[Range], len: u64) -> Self {
        Self {
            record,
            extents: extents.to_vec(),
            map: Map::from_extents(extents, len).with_room(EXTENTS),
        }
    }
}

#[derive(Clone, Copy, Default)]
struct Row {
    tag: u32,
    cap: Option<u64>,
    logical: u64,
    physical: u64,
}

const STEPS: [u64; 24] = [
    16, 16, 32, 32, 64, 64, 128, 128, 256, 256, 512, 512, 1024, 1024, 2048, 2048, 4096, 4096, 8192,
    8192, 16384, 16384, 32768, 32768,
];

pub struct InPlace {
    limits: Limits,
    regions: Vec<Region>,
    rows: Vec<Row>,
    last: u64,
    held: u64,
}

impl InPlace {
    pub fn new() -> Self {
        Self {
            limits: Limits {
                log2_block: 12,
                table_end: 0,
                file_len: 0,
            },
            regions: Vec::new(),
            rows: Vec::new(),
            last: 0,
            held: 0,
        }
    }

    fn find(&self, id: u64) -> Option<usize> {
        self.regions.iter().position(|r| r.record.number == id)
    }

    /// The free map of what the regions leave.
    fn free_map(&self) -> Free {
        let block = self.limits.block();
        let mut held = Vec::with_capacity(REGIONS * (EXTENTS + 2));
        for region in &self.regions {
            let entry = &region.record.entry;
            held.extend([(entry.header_a, block), (entry.header_b, block)]);
            held.extend(&region.extents);
        }
        Free::complement(self.limits.table_end, self.limits.file_len, &mut held)
    }

    fn row(&mut self, tag: u32) -> Option<&mut Row> {
        self.rows.iter_mut().find(|row| row.tag == tag)
    }

    /// The tag's row, made where it has none; none if there is no place for it.
    fn row_made(&mut self, tag: u32) -> Option<&mut Row> {
        if self.row(tag).is_none() {
            if self.rows.len() == TAGS {
                return None;
            }
            self.rows.push(Row {
                tag,
                ..Row::default()
            });
        }
        self.row(tag)
    }

    /// So many bytes more are held by a tag's region.
    fn hold(&mut self, tag: u32, bytes: u64) {
        self.held += bytes;
        self.row_made(tag).expect("there is a place").physical += bytes;
    }

    /// Whether the cap allows so many bytes more.
    fn fits(row: Option<&Row>, extra: u64) -> bool {
        let Some(row) = row else { return true };
        row.cap.is_none_or(|cap| {
            row.physical
                .checked_add(extra)
                .is_some_and(|sum| sum <= cap)
        })
    }

    fn created(&mut self, id: u64, tag: u32, name: &[u8], lent: Places) -> Result<u64, u64> {
        if lent.too_few() || name.len() > NAME {
            return Err(1);
        }
        if self.find(id).is_some() {
            return Err(14);
        }
        if self.regions.iter().any(|r| r.record.name.text() == name) {
            return Err(18);
        }
        let row = self.rows.iter().find(|row| row.tag == tag);
        if self.regions.len() == REGIONS || row.is_none() && self.rows.len() == TAGS {
            return Err(19);
        }
        let Some(footprint_seq) = self.last.checked_add(1) else {
            return Err(20);
        };
        let block = self.limits.block();
        if !Self::fits(row, 2 * block) {
            return Err(21);
        }
        let at = self
            .free_map()
            .first_fit(2 * block, block, 0)
            .ok_or(22u64)?;
        let entry = Entry {
            kind: APPEND,
            flags: 0,
            extent_count: 0,
            header_a: at,
            header_b: at + block,
            span_start: at,
            span_end: at + 2 * block,
            data_size: 0,
            capacity: 0,
            footprint_seq,
        };
        let header = Header {
            region_id: id,
            kind: APPEND,
            flags: 0,
            ready: true,
            log2_block: self.limits.log2_block,
            extent_count: 0,
        };
        let record = Record {
            number: id,
            tag,
            name: Name::new(name),
            entry,
            header,
        };
        self.regions.push(Region::new(record, &[], 0));
        self.last = footprint_seq;
        self.hold(tag, 2 * block);
        Ok(at)
    }

    fn grown(&mut self, id: u64, lent: Places) -> Result<u64, u64> {
        if lent.too_few() {
            return Err(1);
        }
        let i = self.find(id).ok_or(16u64)?;
        let region = &self.regions[i];
        let (tag, n) = (region.record.tag, region.extents.len());
        if region.record.entry.kind == SLOT {
            return Err(17);
        }
        if n == EXTENTS {
            return Err(19);
        }
        let block = self.limits.block();
        let len = STEPS.get(n).unwrap_or(&32_768) * block;
        if !Self::fits(self.rows.iter().find(|row| row.tag == tag), len) {
            return Err(21);
        }
        let at = self.free_map().first_fit(len, block, 0).ok_or(22u64)?;
        let region = &mut self.regions[i];
        refusable(|| region.map.extend(at, len))?;
        region.extents.push((at, len));
        let entry = &mut region.record.entry;
        entry.span_start = entry.span_start.min(at);
        entry.span_end = entry.span_end.max(at + len);
        self.hold(tag, len);
        Ok(at)
    }

    fn published(&mut self, id: u64, len: u64) -> Result<(), u64> {
        let i = self.find(id).ok_or(16u64)?;
        let Region { record, map, .. } = &self.regions[i];
        if len % (1 << record.header.log2_block) != 0 {
            return Err(10);
        }
        let (tag, before) = (record.tag, map.len());
        refusable(|| map.publish_len(len))?;
        let more = map.len() - before;
        self.row(tag).expect("a region's tag has a row").logical += more;
        Ok(())
    }

    fn dropped(&mut self, id: u64, lent: Places) -> Result<(), u64> {
        if lent.too_few() {
            return Err(1);
        }
        let i = self.find(id).ok_or(16u64)?;
        let region = self.regions.remove(i);
        let bytes = 2 * self.limits.block() + region.map.capacity();
        self.held -= bytes;
        let row = self.row(region.record.tag);
        let row = row.expect("a region's tag has a row");
        row.physical -= bytes;
        row.logical -= region.map.len();
        Ok(())
    }

    fn located(&self, id: u64, pos: u64, n: u64, lent: Places) -> Result<u64, u64> {
        if lent.too_few() {
            return Err(1);
        }
        let map = &self.regions[self.find(id).ok_or(16u64)?].map;
        refusable(|| map.locate(pos, n))
    }
}

fn placed(answer: Result<u64, u64>) -> Answer {
    match answer {
        Ok(at) => Answer::At(at),
        Err(number) => Answer::Refused(number),
    }
}

fn done(answer: Result<(), u64>) -> Answer {
    match answer {
        Ok(()) => Answer::Done,
        Err(number) => Answer::Refused(number),
    }
}

impl Side for InPlace {
    fn open(&mut self, opening: &Opening) -> Answer {
        let lists = match check::committed(opening) {
            Ok(lists) => lists,
            Err(number) => return Answer::Refused(number),
        };
        *self = Self::new();
        self.limits = opening.limits;
        for (record, committed) in opening.records.iter().zip(lists) {
            let Entry {
                data_size,
                capacity,
                footprint_seq,
                ..
            } = record.entry;
            self.regions
                .push(Region::new(*record, &committed, data_size));
            self.hold(record.tag, 2 * self.limits.block() + capacity);
            self.row(record.tag).expect("it was made").logical += data_size;
            self.last = self.last.max(footprint_seq);
        }
        Answer::Done
    }

    fn create(&mut self, id: u64, tag: u32, name: &[u8], lent: Places) -> Answer {
        placed(self.created(id, tag, name, lent))
    }

    fn grow(&mut self, id: u64, lent: Places) -> Answer {
        placed(self.grown(id, lent))
    }

    fn publish(&mut self, id: u64, len: u64) -> Answer {
        done(self.published(id, len))
    }

    fn drop(&mut self, id: u64, lent: Places) -> Answer {
        done(self.dropped(id, lent))
    }

    fn cap(&mut self, tag: u32, max: Option<u64>) -> Answer {
        match self.row_made(tag) {
            Some(row) => {
                row.cap = max;
                Answer::Done
            }
            None => Answer::Refused(19),
        }
    }

    fn locate(&mut self, id: u64, pos: u64, n: u64, lent: Places) -> Answer {
        placed(self.located(id, pos, n, lent))
    }

    fn held(&self) -> u64 {
        self.held
    }

    fn free(&self) -> u64 {
        self.limits.file_len - self.limits.table_end - self.held
    }

    fn totals(&self, tag: u32) -> (u64, u64) {
        let row = self.rows.iter().find(|row| row.tag == tag);
        row.map_or((0, 0), |row| (row.logical, row.physical))
    }

    fn last_number(&self) -> u64 {
        self.last
    }

    fn count(&self) -> usize {
        self.regions.len()
    }

    fn region(&self, i: usize) -> (Record, Vec<Range>) {
        let Region {
            mut record,
            ref extents,
            ref map,
        } = self.regions[i];
        record.entry.data_size = map.len();
        record.entry.capacity = map.capacity();
        record.entry.extent_count = extents.len() as u16;
        record.header.extent_count = extents.len() as u16;
        (record, extents.clone())
    }
}

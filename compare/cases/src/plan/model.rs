//! Document 01's plan, written from its words alone: what is held, free and charged is added up anew
//! from the regions whenever it is asked. With a mistake it is wrong in one place.

mod check;
mod region;
mod space;
mod tags;

use super::call::{
    APPEND, Answer, EXTENTS, Limits, NAME, Opening, Places, REGIONS, Range, Record, SLOT,
};
use super::mistake::Mistake::{self, *};
use super::mistake::first;
use super::side::Side;
use region::{Region, Run, up};

#[derive(Clone)]
pub struct Model {
    mistake: Option<Mistake>,
    limits: Limits,
    regions: Vec<Region>,
    /// The tags that have a row, and their caps.
    rows: Vec<(u32, Option<u64>)>,
    last: u64,
    /// What a mistake alone holds.
    kept: Vec<Range>,
}

impl Model {
    pub fn new(mistake: Option<Mistake>) -> Self {
        Self {
            mistake,
            limits: Limits {
                log2_block: 12,
                table_end: 0,
                file_len: 0,
            },
            regions: Vec::new(),
            rows: Vec::new(),
            last: 0,
            kept: Vec::new(),
        }
    }

    fn makes(&self, mistake: Mistake) -> bool {
        self.mistake == Some(mistake)
    }

    fn find(&self, id: u64) -> Option<usize> {
        self.regions.iter().position(|r| r.number == id)
    }
}

impl Side for Model {
    fn open(&mut self, opening: &Opening) -> Answer {
        let refusal = check::refusal(opening, self.mistake);
        if refusal != 0 {
            return Answer::Refused(refusal);
        }
        let mut opened = Self::new(self.mistake);
        opened.limits = opening.limits;
        for (r, listed) in opening.records.iter().zip(check::lists(opening)) {
            let mut committed = usize::from(r.entry.extent_count);
            if opened.makes(ExtraCommitted) {
                committed = listed.len();
            }
            if opened.makes(ExtraHeld) {
                opened.kept.extend(&listed[committed..]);
            }
            let published = match opened.makes(CapacityPublished) {
                true => r.entry.capacity,
                false => r.entry.data_size,
            };
            opened.regions.push(Region {
                number: r.number,
                tag: r.tag,
                name: r.name.text().to_vec(),
                kind: r.entry.kind,
                flags: r.entry.flags,
                log2_block: r.header.log2_block,
                headers: [r.entry.header_a, r.entry.header_b],
                span: (r.entry.span_start, r.entry.span_end),
                seq: r.entry.footprint_seq,
                extents: listed[..committed].to_vec(),
                published,
            });
            if !opened.makes(OpenedTagsWithoutRow) {
                opened.make_row(r.tag);
            }
        }
        let mut seqs = opened.regions.iter().map(|r| r.seq);
        opened.last = match opened.makes(LastNumberOfLastRecord) {
            true => seqs.next_back().unwrap_or(0),
            false => seqs.max().unwrap_or(0),
        };
        *self = opened;
        Answer::Done
    }

    fn create(&mut self, id: u64, tag: u32, name: &[u8], lent: Places) -> Answer {
        let block = self.limits.block();
        let place = self.place(2 * block);
        let most = REGIONS + usize::from(self.makes(SixtyFiveRegions));
        let asked = 2 - u64::from(self.makes(CreateCapAsksOneBlock));
        let tests = [
            (1, lent.too_few() || name.len() > NAME),
            (14, self.find(id).is_some()),
            (18, self.regions.iter().any(|r| r.name == name)),
            (19, self.regions.len() >= most || self.tag_too_many(tag)),
            (20, self.last == u64::MAX),
            (21, !self.fits(tag, asked * block)),
            (22, place.is_none()),
        ];
        let refusal = first(&tests, "create", self.mistake);
        let (0, Some(at)) = (refusal, place) else {
            if self.makes(RowByRefusal) && refusal > 20 {
                self.make_row(tag);
            }
            if self.makes(LastNumberRaisedByRefusal) && refusal > 20 {
                self.last += 1;
            }
            return Answer::Refused(refusal);
        };
        let seq = self.last + 1;
        if !self.makes(LastNumberNotRaised) {
            self.last = seq;
        }
        self.make_row(tag);
        self.regions.push(Region {
            number: id,
            tag,
            name: name.to_vec(),
            kind: APPEND,
            flags: 0,
            log2_block: match self.makes(HeaderLogNine) {
                true => 9,
                false => self.limits.log2_block,
            },
            headers: [at, at + block],
            span: (at, at + 2 * block),
            seq,
            extents: Vec::new(),
            published: 0,
        });
        Answer::At(at)
    }

    fn grow(&mut self, id: u64, lent: Places) -> Answer {
        let found = self.find(id);
        let region = found.map(|i| &self.regions[i]);
        let n = region.map_or(0, |r| r.extents.len());
        let len = self.step(n);
        let place = self.place(len);
        let most = match self.mistake {
            Some(SixtyExtentsTooMany) => EXTENTS - 1,
            Some(SixtyOneExtents) => EXTENTS + 1,
            _ => EXTENTS,
        };
        let slot = region.is_some_and(|r| r.kind == SLOT);
        let tests = [
            (1, lent.too_few()),
            (16, region.is_none()),
            (17, slot && !self.makes(SlotGrows)),
            (19, n >= most),
            (21, region.is_some_and(|r| !self.fits(r.tag, len))),
            (22, place.is_none()),
        ];
        let refusal = first(&tests, "grow", self.mistake);
        let (0, Some(i), Some(at)) = (refusal, found, place) else {
            return Answer::Refused(refusal);
        };
        let mistake = self.mistake;
        let region = &mut self.regions[i];
        region.extents.push((at, len));
        let (from, to) = region.span;
        region.span = match mistake {
            Some(SpanNotWidened) => (from, to),
            Some(SpanWidensUpOnly) => (from, to.max(at + len)),
            _ => (from.min(at), to.max(at + len)),
        };
        if mistake == Some(GrowRaisesNumber) {
            self.last = self.last.saturating_add(1);
            region.seq = self.last;
        }
        Answer::At(at)
    }

    fn publish(&mut self, id: u64, len: u64) -> Answer {
        let Some(i) = self.find(id) else {
            return Answer::Refused(16);
        };
        let region = &self.regions[i];
        let unit = match self.makes(PublishByContainerBlock) {
            true => self.limits.block(),
            false => 1 << region.log2_block,
        };
        let most = match self.makes(PublishPastCapacity) {
            true => region.capacity() + unit,
            false => region.capacity(),
        };
        let tests = [(10, len % unit != 0), (23, len > most)];
        let refusal = first(&tests, "publish", self.mistake);
        if refusal != 0 {
            return Answer::Refused(refusal);
        }
        let lowers = self.makes(PublishLowers);
        let region = &mut self.regions[i];
        region.published = match lowers {
            true => len,
            false => region.published.max(len),
        };
        Answer::Done
    }

    fn drop(&mut self, id: u64, lent: Places) -> Answer {
        let found = self.find(id);
        let tests = [(1, lent.too_few()), (16, found.is_none())];
        let refusal = first(&tests, "drop", self.mistake);
        let (0, Some(i)) = (refusal, found) else {
            return Answer::Refused(refusal);
        };
        let region = self.regions.remove(i);
        if self.makes(DropKeepsBytes) {
            self.kept.extend(&region.extents);
        }
        if self.makes(DropClearsCap) {
            let row = self.rows.iter_mut().find(|row| row.0 == region.tag);
            row.expect("a region's tag has a row").1 = None;
        }
        if self.makes(DropLowersLastNumber) && region.seq == self.last {
            self.last = self.regions.iter().map(|r| r.seq).max().unwrap_or(0);
        }
        Answer::Done
    }

    fn cap(&mut self, tag: u32, max: Option<u64>) -> Answer {
        if self.tag_too_many(tag) {
            return Answer::Refused(19);
        }
        self.make_row(tag);
        let row = self.rows.iter_mut().find(|row| row.0 == tag);
        row.expect("it was made").1 = max;
        Answer::Done
    }

    fn locate(&mut self, id: u64, pos: u64, n: u64, lent: Places) -> Answer {
        let region = self.find(id).map(|i| &self.regions[i]);
        let data = region.map_or(0, |r| match self.makes(LocateByCapacity) {
            true => r.capacity(),
            false => r.published,
        });
        let run = region.and_then(|r| self.run_of(r, pos));
        let to = u128::from(pos) + u128::from(n);
        let past = to > data.into() || self.makes(LocateEmptyAtEndRefused) && pos == data;
        let crosses = |run: &Run| to > u128::from(run.start) + u128::from(run.len);
        let crosses = run.as_ref().is_some_and(crosses) && !self.makes(CrossingAllowed);
        let tests = [
            (1, lent.too_few()),
            (16, region.is_none()),
            (23, past),
            (24, crosses),
        ];
        match first(&tests, "locate", self.mistake) {
            0 if self.makes(LocateEmptyIsByteZero) && n == 0 => Answer::At(0),
            // without extents byte 0
            0 => Answer::At(run.map_or(0, |run| run.file + (pos - run.start))),
            number => Answer::Refused(number),
        }
    }

    fn held(&self) -> u64 {
        self.held_ranges().iter().map(|r| r.1).sum()
    }

    fn free(&self) -> u64 {
        let table_end = self.limits.table_end;
        let lost = match self.makes(FreeFromAlignedTable) {
            true => up(table_end, self.limits.block()) - table_end,
            false => 0,
        };
        let free: u64 = self.gaps().iter().map(|g| g.1).sum();
        free.saturating_sub(lost)
    }

    fn totals(&self, tag: u32) -> (u64, u64) {
        let of_tag = self.regions.iter().filter(|r| r.tag == tag);
        let logical = of_tag.map(|r| match self.makes(LogicalIsCapacity) {
            true => r.capacity(),
            false => r.published,
        });
        (logical.sum(), self.physical(tag))
    }

    fn last_number(&self) -> u64 {
        self.last
    }

    fn count(&self) -> usize {
        self.regions.len()
    }

    fn region(&self, i: usize) -> (Record, Vec<Range>) {
        let r = &self.regions[i];
        (r.record(), r.extents.clone())
    }
}

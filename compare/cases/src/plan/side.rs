//! A side of the comparison: a plan that is opened and called, and what is seen of it.

use super::call::{Answer, Call, Opening, Places, Range, Record};
use super::many::Many;
use std::collections::BTreeSet;

/// A plan. Before an accepted open no call and no reader is asked. A refused call changes nothing.
pub trait Side {
    /// `Done` or refused. An accepted one begins anew.
    fn open(&mut self, opening: &Opening) -> Answer;
    fn create(&mut self, id: u64, tag: u32, name: &[u8], lent: Places) -> Answer;
    fn grow(&mut self, id: u64, lent: Places) -> Answer;
    fn publish(&mut self, id: u64, len: u64) -> Answer;
    fn drop(&mut self, id: u64, lent: Places) -> Answer;
    fn cap(&mut self, tag: u32, max: Option<u64>) -> Answer;
    fn locate(&mut self, id: u64, pos: u64, n: u64, lent: Places) -> Answer;

    fn held(&self) -> u64;
    fn free(&self) -> u64;
    /// Logical and physical; 0 for an unknown tag.
    fn totals(&self, tag: u32) -> (u64, u64);
    fn last_number(&self) -> u64;
    fn count(&self) -> usize;
    /// Region i below the count, in any order that is the side's own, and its committed extents.
    fn region(&self, i: usize) -> (Record, Vec<Range>);

    /// What the last call wrote that it must not.
    fn trespass(&mut self) -> Option<String> {
        None
    }

    /// Makes calls one after another with all places lent; answers how many are accepted.
    fn many(&mut self, many: &Many) -> u64 {
        let mut accepted = 0;
        for call in &many.calls {
            accepted += u64::from(self.ask(call, Places::ALL).accepted());
        }
        accepted
    }

    fn ask(&mut self, call: &Call, lent: Places) -> Answer {
        match *call {
            Call::Create { id, tag, ref name } => self.create(id, tag, name, lent),
            Call::Grow { id } => self.grow(id, lent),
            Call::Publish { id, len } => self.publish(id, len),
            Call::Drop { id } => self.drop(id, lent),
            Call::Cap { tag, max } => self.cap(tag, max),
            Call::Locate { id, pos, n } => self.locate(id, pos, n, lent),
        }
    }

    /// All that is seen of it, with the totals of these tags.
    fn view(&self, tags: &BTreeSet<u32>) -> View {
        let mut regions: Vec<_> = (0..self.count()).map(|i| self.region(i)).collect();
        regions.sort_by_key(|(record, _)| record.number);
        View {
            held: self.held(),
            free: self.free(),
            totals: tags.iter().map(|&tag| (tag, self.totals(tag))).collect(),
            last_number: self.last_number(),
            regions,
        }
    }
}

/// What is seen of a plan. The regions stand by their numbers.
#[derive(Clone, Debug, Default, PartialEq)]
pub struct View {
    pub held: u64,
    pub free: u64,
    pub totals: Vec<(u32, (u64, u64))>,
    pub last_number: u64,
    pub regions: Vec<(Record, Vec<Range>)>,
}

impl View {
    pub fn find(&self, id: u64) -> Option<&(Record, Vec<Range>)> {
        self.regions.iter().find(|(record, _)| record.number == id)
    }

    pub fn totals(&self, tag: u32) -> (u64, u64) {
        let row = self.totals.iter().find(|row| row.0 == tag);
        row.map_or((0, 0), |row| row.1)
    }

    /// The first thing that the other has otherwise, as each has it.
    pub fn differs(&self, other: &Self) -> Option<[String; 2]> {
        let told = |name: &str, texts: [String; 2]| texts.map(|text| format!("{name} {text}"));
        let numbers = |view: &Self| [view.held, view.free, view.last_number];
        for (k, name) in ["held", "free", "last number"].iter().enumerate() {
            let both = [self, other].map(|view| numbers(view)[k]);
            if both[0] != both[1] {
                return Some(told(name, both.map(|n| n.to_string())));
            }
        }
        let rows = self.totals.iter().zip(&other.totals);
        if let Some((a, b)) = rows.into_iter().find(|(a, b)| a != b) {
            return Some(told("totals", [a, b].map(|row| format!("{row:?}"))));
        }
        let counts = [self, other].map(|view| view.regions.len());
        if counts[0] != counts[1] {
            return Some(told("count", counts.map(|n| n.to_string())));
        }
        let regions = self.regions.iter().zip(&other.regions);
        regions
            .into_iter()
            .find(|(a, b)| a != b)
            .map(|(a, b)| told("region", [a, b].map(|region| format!("{region:?}"))))
    }
}

/// Makes a side that is not opened yet.
pub type Maker<'a> = &'a dyn Fn() -> Box<dyn Side>;

/// Two sides by name. What the first answers is due.
#[derive(Clone, Copy)]
pub struct Pair<'a> {
    pub due: (&'a str, Maker<'a>),
    pub other: (&'a str, Maker<'a>),
}

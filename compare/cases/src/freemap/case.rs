//! Containers with ranges and questions told in numbers, and the lists that they come to.

use crate::flat::pairs;
use crate::random::Random;
use crate::shrink::{apart, deadline, places, shrink_until, together};

/// A question to the map: how far the places lent are from those needed; length, align and skew.
pub type Told = [u64; WIDTH];

const WIDTH: usize = 4;

/// A question in a list of gaps just long enough.
pub fn plain(len: u64, align: u64, skew: u64) -> Told {
    [0, len, align, skew]
}

/// Which number of `container` tells what.
const TABLE_END: usize = 0;
const LEN: usize = 1;
const PLACES: usize = 2;
const FILLING: usize = 3;

#[derive(Clone, PartialEq)]
pub struct Case {
    /// Table end and length; how far the places for gaps are from those needed, and what fills them.
    container: Vec<u64>,
    pub ranges: Vec<u64>,
    questions: Vec<u64>,
}

#[derive(Debug)]
pub struct Question {
    places: u64,
    pub len: u64,
    pub align: u64,
    pub skew: u64,
}

impl Question {
    pub fn new(len: u64, align: u64, skew: u64) -> Self {
        Self {
            places: 0,
            len,
            align,
            skew,
        }
    }

    /// How many of so many slots are lent where the map counts so many gaps.
    pub fn lent(&self, count: usize, slots: usize) -> usize {
        places(self.places, 2 * count.min(slots)).min(slots)
    }
}

/// What the calls are given.
pub struct Lists {
    pub table_end: u64,
    pub len: u64,
    pub ranges: Vec<u64>,
    pub gaps: Vec<u64>,
    pub questions: Vec<Question>,
}

impl Case {
    /// A container with a list of gaps just long enough.
    pub fn new(table_end: u64, len: u64, ranges: &[u64], questions: &[Told]) -> Self {
        Self {
            container: vec![table_end, len, 0, 1],
            ranges: ranges.to_vec(),
            questions: questions.concat(),
        }
    }

    /// How far the places for gaps are from those needed.
    pub fn with_places(mut self, told: u64) -> Self {
        self.container[PLACES] = told;
        self
    }

    pub fn filled(mut self, filling: u64) -> Self {
        self.container[FILLING] = filling;
        self
    }

    /// Further questions.
    pub fn ask(&mut self, questions: &[Told]) {
        self.questions.extend(questions.concat());
    }

    pub fn lists(&self) -> Lists {
        let need = 2 * (self.ranges.len() / 2 + 1);
        let random = &mut Random::new(self.container[FILLING]);
        let slots = 0..places(self.container[PLACES], need);
        let question = |told: &[u64]| Question {
            places: told[0],
            len: told[1],
            align: told[2],
            skew: told[3],
        };
        Lists {
            table_end: self.container[TABLE_END],
            len: self.container[LEN],
            ranges: self.ranges.clone(),
            gaps: slots.map(|_| random.next()).collect(),
            questions: self.questions.chunks_exact(WIDTH).map(question).collect(),
        }
    }

    fn part(&mut self, k: usize) -> &mut Vec<u64> {
        match k {
            0 => &mut self.questions,
            1 => &mut self.ranges,
            _ => &mut self.container,
        }
    }

    /// The smallest case on which the sides still differ, or as small a one as is found in time.
    pub fn smallest(&self, differs: fn(&Self) -> bool) -> Self {
        let end = deadline();
        let mut small = self.clone();
        let unit = if self.ranges.len() % 2 == 0 { 2 } else { 0 };
        loop {
            let before = small.clone();
            for (k, unit) in [(0, WIDTH), (1, unit), (2, 0)] {
                let still = |part: &[u64]| {
                    let mut changed = small.clone();
                    *changed.part(k) = part.to_vec();
                    differs(&changed)
                };
                let part = small.clone().part(k).clone();
                *small.part(k) = shrink_until(end, part, unit, still);
            }
            if small.ranges.len() % 2 == 0 {
                let still = |told: &[u64]| {
                    let mut changed = small.clone();
                    changed.ranges = together(told);
                    differs(&changed)
                };
                let told = apart(&pairs(&small.ranges));
                small.ranges = together(&shrink_until(end, told, 0, still));
            }
            if small == before {
                return small;
            }
        }
    }
}

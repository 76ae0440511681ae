//! Random containers, ranges and questions.

use super::Check;
use super::case::{Case, Told, plain};
use crate::flat::{beside, flat, pairs};
use crate::random::Random;
use oracle::free::Free;

const MAX: u64 = u64::MAX;

/// Where ranges lie and how long they are.
#[derive(Clone, Copy, Debug)]
pub enum Space {
    Tiny,
    /// Whole blocks, now and then a byte off.
    Blocks,
    Wide,
    /// At the last bytes.
    Top,
}

impl Space {
    pub fn drawn(random: &mut Random) -> Self {
        [Self::Tiny, Self::Blocks, Self::Wide, Self::Top][random.below(4) as usize]
    }

    /// A range, where there are about n of them.
    fn range(self, n: u64, random: &mut Random) -> (u64, u64) {
        match self {
            Self::Tiny => (random.below(3 * n + 4), random.below(5)),
            Self::Blocks => {
                let off = random.below(8) / 7;
                let (offset, len) = (random.below(4 * n + 4), 1 + random.below(3));
                (offset * 4096 + off, len * 4096 - random.below(8) / 7)
            }
            Self::Wide => (random.sized(), random.sized()),
            Self::Top => {
                let len = [random.below(5), MAX - random.below(2), random.sized()];
                (
                    MAX - random.below(3 * n + 4),
                    len[random.below(8).min(2) as usize],
                )
            }
        }
    }

    /// Table end and length: around all ranges, or among them, or with no byte between.
    fn container(self, n: u64, random: &mut Random) -> (u64, u64) {
        let (least, most) = match self {
            Self::Tiny => (0, 3 * n + 6),
            Self::Blocks => (0, (4 * n + 6) * 4096),
            Self::Wide => (0, MAX),
            Self::Top => (MAX - (3 * n + 6), MAX),
        };
        let among = least + random.next() % (most - least).max(1);
        match random.below(8) {
            0 => (among, among),
            1 => (among, least + random.next() % (most - least)),
            2 => (among.saturating_add(1), among),
            3 => (0, most),
            4 => (least, among),
            _ => (least + random.next() % (among - least + 1), most),
        }
    }
}

/// n ranges; some equal, touch, share an end with one before or lie in it.
pub fn ranges(n: usize, space: Space, random: &mut Random) -> Vec<(u64, u64)> {
    let mut all: Vec<(u64, u64)> = Vec::new();
    for i in 0..n {
        let (offset, len) = space.range(n as u64, random);
        let other = match i {
            0 => (0, 0),
            _ => all[random.below(i as u64) as usize],
        };
        all.push(match random.below(16) {
            5 => (other.0 + other.1 / 3, other.1 / 3),
            6 => (offset, 0),
            way => beside(way, (offset, len), other),
        });
    }
    all
}

/// A skew for an align and a gap's start: none, a multiple, any, one with which the gap's start is a
/// place or just is none, one near 2^64 or near the last that skips no gap.
fn skew(align: u64, start: u64, random: &mut Random) -> u64 {
    let fitting = start.wrapping_neg() % align.max(1);
    match random.below(10) {
        0..2 => 0,
        2 => align.wrapping_mul(random.below(4)),
        3 => random.below(9),
        4 => random.sized(),
        5 => fitting,
        6 => fitting.wrapping_sub(1),
        7 => MAX - random.below(9),
        8 => MAX - random.sized(),
        _ => (MAX - start)
            .wrapping_sub(align.wrapping_sub(1))
            .wrapping_add(random.below(3))
            .wrapping_sub(1),
    }
}

/// A length for a gap of so many bytes.
fn length(bytes: u64, random: &mut Random) -> u64 {
    match random.below(10) {
        0 => 0,
        1 => 1,
        2..4 => bytes,
        4 => bytes.wrapping_add(1),
        5 => bytes.wrapping_sub(1),
        6 => bytes / 2,
        7 => random.sized(),
        8 => MAX - random.below(3),
        _ => random.below(9),
    }
}

/// An align: mostly small, any power of two, now and then another number.
fn align(random: &mut Random) -> u64 {
    match random.below(16) {
        0 => random.below(20),
        1 => random.sized(),
        2..6 => 1 << random.below(64),
        6..9 => 4096,
        _ => 1 << random.below(6),
    }
}

/// Questions to a map with these gaps.
fn questions(n: usize, gaps: &[(u64, u64)], random: &mut Random) -> Vec<Told> {
    let mut all = Vec::new();
    for _ in 0..n {
        let (start, bytes) = match gaps.len() as u64 {
            0 => (random.sized(), random.sized()),
            k => gaps[random.below(k) as usize],
        };
        let align = align(random);
        let skew = skew(align, start, random);
        let places = match random.below(16) {
            0 => 2 + 2 * random.below(3),
            1..6 => 1 + 2 * random.below(6),
            _ => 0,
        };
        all.push([places, length(bytes, random), align, skew]);
    }
    all
}

/// A container with these ranges and n questions to its map.
pub fn case(ranges: &[(u64, u64)], space: Space, n: usize, random: &mut Random) -> Case {
    let (table_end, len) = space.container(ranges.len() as u64, random);
    let free = Free::complement(table_end, len, &mut ranges.to_vec());
    let asked = questions(n, &free.gaps(), random);
    Case::new(table_end, len, &flat(ranges), &asked).filled(random.next())
}

/// Lists that are longer than needed, too short or odd.
fn resize(case: Case, random: &mut Random) -> Case {
    let mut case = case.with_places(match random.below(8) {
        0 => 2 + 2 * random.below(4),
        1..5 => 1 + 2 * random.below(9),
        _ => 0,
    });
    if random.below(4) == 0 {
        case.ranges.push(random.sized());
    }
    case
}

/// Every power of two as align, with skews and lengths that tell, on containers of a kind each.
fn every_align(random: &mut Random, check: Check) -> Result<(), String> {
    for round in 0..400 {
        let space = Space::drawn(random);
        let drawn = ranges(round % 9, space, random);
        let mut case = case(&drawn, space, 0, random);
        let lists = case.lists();
        let mut allocated = pairs(&lists.ranges);
        let gaps = Free::complement(lists.table_end, lists.len, &mut allocated).gaps();
        for align in (0..64).map(|k| 1 << k) {
            for _ in 0..24 {
                let (start, bytes) = match gaps.len() as u64 {
                    0 => (random.sized(), random.sized()),
                    k => gaps[random.below(k) as usize],
                };
                let skew = skew(align, start, random);
                case.ask(&[plain(length(bytes, random), align, skew)]);
            }
        }
        check(&case)?;
    }
    Ok(())
}

pub fn compare(random: &mut Random, check: Check) -> Result<(), String> {
    for i in 0..400_000 {
        let space = Space::drawn(random);
        let most = if i % 16 == 0 { 40 } else { 8 };
        let drawn = ranges(random.below(most) as usize, space, random);
        let mut case = case(&drawn, space, 8, random);
        if i % 4 == 0 {
            case = resize(case, random);
        }
        check(&case)?;
    }
    every_align(random, check)?;
    for i in 0..3000 {
        let space = Space::drawn(random);
        let drawn = ranges(random.below(400) as usize, space, random);
        let mut case = case(&drawn, space, 20, random);
        if i % 4 == 0 {
            case = resize(case, random);
        }
        check(&case)?;
    }
    for (n, rounds) in [(4000, 24), (65_536, 8)] {
        for i in 0..rounds {
            let space = [Space::Tiny, Space::Blocks, Space::Wide, Space::Top][i % 4];
            let mut drawn = ranges(n, space, random);
            if i >= rounds / 2 {
                drawn.sort_unstable();
            }
            check(&case(&drawn, space, 40, random))?;
        }
    }
    Ok(())
}

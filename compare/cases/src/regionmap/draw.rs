//! Random sequences of calls.

use super::sequence::{
    EXTEND, EXTENTS, FROM_EXTENTS, LOCATE, LOCATE_AMONG, PUBLISH_LEN, Sequence, Told, WITH_ROOM,
};
use super::sides::MOST;
use crate::flat::{pairs, spread};
use crate::random::Random;
use crate::shrink::distance;

const MAX: u64 = u64::MAX;

/// How large the numbers of a sequence are.
#[derive(Clone, Copy, PartialEq)]
pub enum Size {
    Tiny,
    Blocks,
    Any,
    /// Lengths that add up to about 2^64 - 1, and offsets beside it.
    Giant,
}

impl Size {
    pub fn drawn(random: &mut Random) -> Self {
        [Self::Tiny, Self::Blocks, Self::Any, Self::Giant][random.below(4) as usize]
    }
}

/// n extents, of which `parts` in eight follow the one before.
pub fn extents(n: usize, parts: u64, size: Size, random: &mut Random) -> Vec<(u64, u64)> {
    let mut list = Vec::new();
    let (mut end, mut sum) = (0u64, 0u64);
    for _ in 0..n {
        let len = length(size, MAX - sum, random);
        let elsewhere = match size {
            Size::Giant => match random.below(4) {
                0 => 0,
                1 => random.sized() % (MAX - len).max(1),
                _ => (MAX - len).wrapping_add(random.below(8) / 7),
            },
            Size::Any => random.sized() >> 8,
            _ => end + 1 + random.below(3) * random.below(3),
        };
        let elsewhere = match random.below(6) {
            0 => end.saturating_sub(1),
            1 => 0,
            _ => elsewhere,
        };
        let offset = if random.below(8) < parts {
            end
        } else {
            elsewhere
        };
        list.push((offset, len));
        if len > 0 {
            end = offset.wrapping_add(len);
        }
        sum = sum.saturating_add(len);
    }
    list
}

/// A length, where so many bytes are left up to 2^64 - 1.
fn length(size: Size, left: u64, random: &mut Random) -> u64 {
    if random.below(6) == 0 {
        return random.below(2);
    }
    match size {
        Size::Tiny => random.below(4),
        Size::Blocks => (1 + random.below(16)) * 4096,
        Size::Any => random.sized() >> 16,
        Size::Giant => match random.below(8) {
            0 => left,
            1 => left.wrapping_add(random.below(2)),
            2 => MAX - random.below(2),
            _ => left.min(random.sized()) / 2,
        },
    }
}

/// A distance, mostly none, else a small one.
fn near(random: &mut Random) -> u64 {
    match random.below(8) {
        0..4 => 0,
        4..7 => random.below(3),
        _ => random.below(12),
    }
}

/// How far the places of a list are from those that the call needs: mostly not, or more.
fn places(random: &mut Random) -> u64 {
    match random.below(16) {
        0..9 => 0,
        9..13 => 1 + 2 * random.below(4),
        13..15 => 2 * MOST as u64 + 1,
        _ => 2 * (1 + random.below(2)),
    }
}

/// Which call, its first argument, its second.
fn told(call: u64, first: (u64, u64), second: (u64, u64), random: &mut Random) -> Told {
    [
        call,
        first.0,
        first.1,
        second.0,
        second.1,
        places(random),
        places(random),
    ]
}

/// A map of all the extents, or of fewer; mostly with all of its bytes published, or none.
fn from_extents(random: &mut Random) -> Told {
    let fewer = match random.below(8) {
        0 => 1 + random.below(3),
        _ => 0,
    };
    let len = match random.below(8) {
        0 => (0, 0),
        1..3 => (1, near(random)),
        3..6 => (1, 0),
        _ => (2, random.next()),
    };
    told(FROM_EXTENTS, (fewer, 0), len, random)
}

fn with_room(random: &mut Random) -> Told {
    let asked = match random.below(16) {
        0..2 => (0, random.sized()),
        2..4 => (1, near(random)),
        4 => (3, near(random)),
        _ => (2, 1 + 2 * random.below(5)),
    };
    told(WITH_ROOM, asked, (0, 0), random)
}

/// A length to publish, mostly the capacity; there are about so many runs.
fn publish_len(runs: u64, random: &mut Random) -> Told {
    let len = match random.below(8) {
        0 => (0, random.sized()),
        1 => (1, near(random)),
        2 => (2, near(random)),
        3 => (3, random.next()),
        4 => (4 + random.below(runs), near(random)),
        _ => (2, 0),
    };
    told(PUBLISH_LEN, len, (0, 0), random)
}

/// An extension at or beside the end of the last run or another, or elsewhere.
pub fn extend(runs: u64, size: Size, random: &mut Random) -> Told {
    let file = match random.below(8) {
        0 => (0, near(random)),
        1..4 => (1, near(random)),
        4 if size == Size::Giant => (2, random.sized()),
        4 => (2, 2 * random.below(9)),
        5 => (0, random.sized()),
        _ => (3 + random.below(runs), near(random)),
    };
    let n = match random.below(16) {
        0 => (0, 0),
        1 => (1, near(random)),
        2 if size == Size::Giant => (2, near(random)),
        _ => (0, distance(length(size, MAX / 4, random).max(1), 0)),
    };
    told(EXTEND, file, n, random)
}

fn locate(runs: u64, random: &mut Random) -> Told {
    let pos = match random.below(16) {
        0 => (0, random.sized()),
        1 => (1, near(random)),
        2 => (2, near(random)),
        3..7 => (3, random.next()),
        _ => (4 + random.below(runs), near(random)),
    };
    let n = match random.below(16) {
        0..2 => (0, 0),
        2 => (0, random.sized()),
        3..7 => (0, 1 + 2 * random.below(8)),
        7..9 => (2, near(random)),
        9..13 => (1, near(random)),
        _ => (0, 1),
    };
    let call = [LOCATE, LOCATE, LOCATE_AMONG][random.below(3) as usize];
    told(call, pos, n, random)
}

/// Some call; there are about so many runs.
pub fn any(runs: u64, size: Size, random: &mut Random) -> Told {
    match random.below(32) {
        0 => from_extents(random),
        1..4 => with_room(random),
        4..10 => publish_len(runs, random),
        10..20 => extend(runs, size, random),
        20..22 => told(EXTENTS, (0, near(random)), (0, 0), random),
        _ => locate(runs, random),
    }
}

/// A map of n extents and so many calls on it, in lists of at most so many places.
pub fn sequence(n: usize, size: Size, calls: u64, places: usize, random: &mut Random) -> Sequence {
    let list = extents(n, random.below(8), size, random);
    let mut told = vec![from_extents(random)];
    if random.below(8) > 0 {
        // all of the extents, in lists that are long enough
        told[0][1] = 0;
        for places in &mut told[0][5..] {
            *places *= *places % 2;
        }
    }
    if random.below(4) > 0 {
        told.push(with_room(random));
    }
    for _ in 0..calls {
        told.push(any(n as u64 + 4, size, random));
    }
    Sequence::new(places, random.next(), &list, &told)
}

/// A map that is extended until no room is left, and further.
pub fn filled(random: &mut Random) -> Sequence {
    let list = extents(random.below(3) as usize, 0, Size::Tiny, random);
    let mut told = vec![[FROM_EXTENTS, 0, 0, 1, 0, 0, 0]];
    told.push([WITH_ROOM, 3, 0, 0, 0, 0, 0]);
    for _ in 0..MOST + 400 {
        // one in sixteen joins the last run
        let apart = (1 + random.below(3)) * random.below(16).min(1);
        let n = 1 + random.below(3);
        told.push([EXTEND, 1, distance(apart, 0), 0, distance(n, 0), 0, 0]);
    }
    told.push([PUBLISH_LEN, 2, 0, 0, 0, 0, 0]);
    Sequence::new(MOST, random.next(), &list, &told)
}

/// A map of n runs, with all of its bytes published.
pub fn of_runs(n: usize, random: &mut Random) -> Sequence {
    let list = pairs(&spread(n, 0, random));
    Sequence::new(n, random.next(), &list, &[[FROM_EXTENTS, 0, 0, 1, 0, 0, 0]])
}

/// Both lookups at so many runs' starts and beside them, at 0, at the ends of data and capacity and
/// beside them, with each length that may matter there.
pub fn sweep(runs: usize) -> Vec<Told> {
    let starts = (4..).take(runs).chain([0, 1, 2]);
    let lengths = [(0, 0), (0, 1), (0, 2), (1, 0), (1, 1), (2, 0), (2, 1)];
    starts
        .flat_map(|from| [0, 1, 2].map(|by| (from, by)))
        .flat_map(|(from, by)| lengths.map(|n| [from, by, n.0, n.1]))
        .flat_map(|[a, b, c, d]| [LOCATE, LOCATE_AMONG].map(|call| [call, a, b, c, d, 0, 0]))
        .collect()
}

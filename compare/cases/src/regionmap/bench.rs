//! The map's times.

use super::sides::MOST;
use crate::flat::{flat, pairs, spread};
use crate::random::Random;
use crate::table::{grows, median, row};
use oracle::map::Map;
use ours::map::{Map as Numbers, Run, locate_among_each};
use std::hint::black_box;

/// A map of ours and its lists.
#[derive(Clone)]
struct Ours {
    map: Numbers,
    starts: Vec<u64>,
    files: Vec<u64>,
}

impl Ours {
    /// Of these extents, with so many bytes published and all the room that a map may have.
    fn new(extents: &[u64], len: u64) -> Self {
        let mut ours = Self::blank();
        let (starts, files) = (&mut ours.starts, &mut ours.files);
        let refusal = ours::map::from_extents(extents, len, starts, files, &mut ours.map);
        assert_eq!(refusal, 0);
        assert_eq!(ours::map::with_room(MOST, starts, files, &mut ours.map), 0);
        ours
    }

    fn blank() -> Self {
        Self {
            map: Numbers {
                first: 0,
                data: 0,
                capacity: 0,
                count: 0,
                room: 0,
            },
            starts: vec![1; MOST],
            files: vec![1; MOST],
        }
    }
}

fn capacity(extents: &[u64]) -> u64 {
    pairs(extents).iter().map(|e| e.1).sum()
}

pub fn bench(random: &mut Random) {
    for (name, runs) in [("1 run", 1), ("60 runs", 60), ("4,084 runs", MOST)] {
        locate(name, runs, random);
    }
    extend("extend, joining", &spread(MOST, 8, random));
    extend("extend, not joining", &spread(MOST, 0, random));
    for (name, n, calls) in [("60", 60, 256), ("4,084", MOST, 16)] {
        from_extents(name, n, calls, random);
    }
    publish(random);
}

/// One byte at each of so many random positions that no predictor learns them.
fn locating(runs: usize, random: &mut Random) -> [f64; 3] {
    let n = 1 << 20;
    let extents = spread(runs, 0, random);
    let len = capacity(&extents);
    let positions: Vec<u64> = (0..n).map(|_| random.below(len)).collect();
    let map = Map::from_extents(&pairs(&extents), len);
    let ours = Ours::new(&extents, len);
    let mut by_rust = vec![0; n];
    let rust = median(
        11,
        || (),
        |()| {
            for (at, &pos) in by_rust.iter_mut().zip(&positions) {
                *at = map.locate(pos, 1);
            }
            black_box(&mut by_rust);
        },
    );
    let mut by_ours = vec![0; n];
    let mine = median(
        11,
        || (),
        |()| {
            let Ours { map, starts, files } = &ours;
            let located = ours::map::locate_each(map, starts, files, &positions, 1, &mut by_ours);
            assert_eq!(located, n as u64);
        },
    );
    assert_eq!(by_rust, by_ours);
    let records = records(&map);
    let mut by_records = vec![0; n];
    let among = median(
        11,
        || (),
        |()| {
            let located = locate_among_each(&records, len, &positions, 1, &mut by_records);
            assert_eq!(located, n as u64);
        },
    );
    assert_eq!(by_rust, by_records);
    [rust, mine, among].map(|t| t / n as f64)
}

fn locate(name: &str, runs: usize, random: &mut Random) {
    let [rust, mine, among] = locating(runs, random);
    row(&format!("locate in {name}"), rust, mine);
    row("  among them as records", rust, among);
}

/// The map's runs.
fn records(map: &Map) -> Vec<Run> {
    let mut start = 0;
    let record = |(file, len)| {
        let run = Run { start, file, len };
        start += len;
        run
    };
    map.extents().map(record).collect()
}

/// A map without extents is extended by each extent in turn. The Rust makes room for runs in chunks
/// as they come, which is part of its time; ours has its lists lent.
fn extend(name: &str, extents: &[u64]) {
    let n = extents.len() / 2;
    let list = pairs(extents);
    let rust = median(
        41,
        || Map::from_extents(&[], 0).with_room(MOST),
        |map| {
            for &(file, n) in &list {
                map.extend(file, n);
            }
        },
    );
    let mine = median(
        41,
        || Ours::new(&[], 0),
        |ours| {
            let Ours { map, starts, files } = ours;
            let extended = ours::map::extend_each(extents, starts, files, map);
            assert_eq!(extended, n as u64);
        },
    );
    let one = |t: f64| t / n as f64;
    row(name, one(rust), one(mine));
}

/// No two of the extents are adjacent.
fn building(n: usize, calls: usize, random: &mut Random) -> (f64, f64) {
    // several lists, so that no predictor learns one of them
    let lists: Vec<Vec<u64>> = (0..calls).map(|_| spread(n, 0, random)).collect();
    let of_pairs: Vec<_> = lists.iter().map(|l| pairs(l)).collect();
    let rust = median(
        41,
        || Vec::with_capacity(calls),
        |maps| {
            for extents in &of_pairs {
                maps.push(Map::from_extents(extents, 4096));
            }
        },
    );
    let mine = median(
        41,
        || vec![Ours::blank(); calls],
        |maps| {
            for (extents, ours) in lists.iter().zip(maps) {
                let Ours { map, starts, files } = ours;
                assert_eq!(
                    ours::map::from_extents(extents, 4096, starts, files, map),
                    0
                );
            }
        },
    );
    let one = |t: f64| t / calls as f64;
    (one(rust), one(mine))
}

fn from_extents(name: &str, n: usize, calls: usize, random: &mut Random) {
    let (rust, mine) = building(n, calls, random);
    row(&format!("from_extents of {name} extents"), rust, mine);
}

pub fn growth(random: &mut Random) {
    let sizes = [1, 8, 60, 500, MOST];
    grows("locate among so many runs", &sizes, |n| {
        locating(n, random)[1]
    });
    grows("  among them as records", &sizes, |n| {
        locating(n, random)[2]
    });
    grows("from_extents of so many extents", &sizes, |n| {
        building(n, 16, random).1
    });
}

fn publish(random: &mut Random) {
    let lens: Vec<u64> = (1..=4096).map(|k| k * 4096 - random.below(4096)).collect();
    let extents = flat(&[(0, 4096 * 4096)]);
    let rust = median(
        41,
        || Map::from_extents(&pairs(&extents), 0),
        |map| {
            for &len in &lens {
                map.publish_len(len);
            }
        },
    );
    let mine = median(
        41,
        || Ours::new(&extents, 0),
        |ours| assert_eq!(ours::map::publish_each(&lens, &mut ours.map), 4096),
    );
    let one = |t: f64| t / lens.len() as f64;
    row("publish_len, rising", one(rust), one(mine));
}

//! The calls that are there for the benchmark do what the single ones do.

use super::draw::{Size, extents};
use crate::flat::flat;
use crate::lent::Lent;
use crate::random::Random;
use ours::map::{Map, Run};

const PLACES: usize = 16;

/// A map of some extents with some room, and its lists.
fn made(random: &mut Random) -> (Map, [Vec<u64>; 2]) {
    let mut lists = [vec![5; PLACES], vec![6; PLACES]];
    let [starts, files] = &mut lists;
    let mut map = Map {
        first: 0,
        data: 0,
        capacity: 0,
        count: 0,
        room: 0,
    };
    let size = Size::drawn(random);
    let list = flat(&extents(random.below(8) as usize, 2, size, random));
    ours::map::from_extents(&list, 0, starts, files, &mut map);
    let room = random.below(PLACES as u64) as usize;
    ours::map::with_room(room, starts, files, &mut map);
    (map, lists)
}

fn extends(map: Map, lists: &[Vec<u64>; 2], random: &mut Random) -> bool {
    let size = Size::drawn(random);
    let list = flat(&extents(random.below(12) as usize, 2, size, random));
    let (mut single, mut single_lists) = (map, lists.clone());
    let [starts, files] = &mut single_lists;
    let accepted = list
        .chunks(2)
        .filter(|e| ours::map::extend(e[0], e[1], starts, files, &mut single) == 0)
        .count() as u64;
    let mut each = map;
    let mut lent = lists.each_ref().map(|l| Lent::new(l));
    let [starts, files] = lent.each_mut().map(Lent::list);
    accepted == ours::map::extend_each(&list, starts, files, &mut each)
        && each == single
        && lent.map(Lent::back) == single_lists
}

fn publishes(map: Map, random: &mut Random) -> bool {
    let most = map.capacity.saturating_add(2).max(1);
    let lens: Vec<u64> = (0..random.below(12))
        .map(|_| random.next() % most)
        .collect();
    let mut single = map;
    let accepted = lens
        .iter()
        .filter(|&&len| ours::map::publish_len(len, &mut single) == 0)
        .count() as u64;
    let mut each = map;
    accepted == ours::map::publish_each(&lens, &mut each) && each == single
}

/// All bytes are published. Each position is below the data's end, so that all are located, or none
/// where there are too few places for their bytes.
fn locates(mut map: Map, [starts, files]: &[Vec<u64>; 2], random: &mut Random) -> bool {
    ours::map::publish_len(map.capacity, &mut map);
    let many = if map.data == 0 { 0 } else { random.below(12) };
    let positions: Vec<u64> = (0..many).map(|_| random.next() % map.data).collect();
    let mut ats: Vec<u64> = (8_000_000..).take(random.below(16) as usize).collect();
    let mut lent = Lent::new(&ats);
    let mut due = 0;
    if positions.len() <= ats.len() {
        due = positions.len() as u64;
        for (at, &pos) in ats.iter_mut().zip(&positions) {
            *at = ours::map::locate(&map, starts, files, pos, 1).1;
        }
    }
    let located = ours::map::locate_each(&map, starts, files, &positions, 1, lent.list());
    located == due && lent.back() == ats
}

/// Among runs of two bytes that lie apart in the file; about half of the positions are published.
fn locates_among(random: &mut Random) -> bool {
    let many = 1 + random.below(8);
    let run = |k| Run {
        start: 2 * k,
        file: 100 + 5 * k,
        len: 2,
    };
    let runs: Vec<Run> = (0..many).map(run).collect();
    let published = 1 + random.below(2 * many);
    let positions: Vec<u64> = (0..random.below(12))
        .map(|_| random.next() % (2 * published))
        .collect();
    let mut ats: Vec<u64> = (8_000_000..).take(random.below(16) as usize).collect();
    let mut lent = Lent::new(&ats);
    let mut due = 0;
    if positions.len() <= ats.len() {
        for (at, &pos) in ats.iter_mut().zip(&positions) {
            let (refusal, byte) = ours::map::locate_among(&runs, published, pos, 1);
            if refusal == 0 {
                *at = byte;
                due += 1;
            }
        }
    }
    let located = ours::map::locate_among_each(&runs, published, &positions, 1, lent.list());
    located == due && lent.back() == ats
}

/// How many calls were made, or the first that does something else.
pub fn compare(random: &mut Random) -> Result<usize, String> {
    let rounds = 50_000;
    for _ in 0..rounds {
        let (map, lists) = made(random);
        let seed = random.next();
        let calls = [
            ("extend_each", extends(map, &lists, &mut Random::new(seed))),
            ("publish_each", publishes(map, &mut Random::new(seed))),
            ("locate_each", locates(map, &lists, &mut Random::new(seed))),
            ("locate_among_each", locates_among(&mut Random::new(seed))),
        ];
        if let Some((name, _)) = calls.iter().find(|(_, alike)| !alike) {
            return Err(format!(
                "{name} does not do what the single calls do on {map:?} with {lists:?}, seed {seed}"
            ));
        }
    }
    Ok(4 * rounds)
}

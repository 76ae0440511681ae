//! The differences that docs/DIFFERENCES.md lists, each on the input that it names.

use super::sides::{Call, MOST, Sides};
use crate::flat::flat;

const MAX: u64 = u64::MAX;

/// A map that both sides accept, with all of its bytes published, and its room.
type Start<'a> = (&'a [(u64, u64)], usize);

/// What the Rust leaves, capacity and runs after the first, or the number for its assert.
type Left = Result<(u64, usize), u64>;

fn from_extents(extents: &[(u64, u64)], len: u64) -> Call {
    Call::FromExtents {
        extents: flat(extents),
        len,
    }
}

fn extend(file: u64, n: u64) -> Call {
    Call::Extend { file, n }
}

/// What the Rust does with a call on this map, and our refusal, after which nothing has changed.
fn asked(start: Start, call: &Call, places: usize) -> Result<(Left, u64), String> {
    let many = MOST + 1;
    let mut sides = Sides::new([vec![5; many], vec![6; many]]);
    let len = start.0.iter().map(|e| e.1).sum();
    for made in [
        from_extents(start.0, len),
        Call::WithRoom { asked: start.1 },
    ] {
        if sides.ask(&made, [many; 2]).ok() != Some(0) {
            return Err(format!("{made:?} is not accepted by both sides"));
        }
    }
    let ours = sides.ask_ours(call, [places; 2]).refusal;
    if sides.rest().is_err() {
        return Err(format!("{call:?}: ours is refused and changes something"));
    }
    let rust = sides.ask_rust(call);
    let left = rust.map(|_| (sides.due.capacity, sides.due.count));
    Ok((left, ours))
}

/// How many listed differences were found as they are listed, or the first that was not.
pub fn compare() -> Result<usize, String> {
    let many = MOST + 1;
    let none: Start = (&[], 0);
    let roomy: Start = (&[], 1);
    let one: Start = (&[(0, 1)], 0);
    let two: Start = (&[(0, 1), (0, 1)], 0);
    let full: Start = (&[(0, MAX)], 1);
    let narrow: Start = (&[(0, MAX)], 0);
    // the map, the call, the places of its lists, what the Rust leaves, our refusal
    let rows: Vec<(Start, Call, usize, Left, u64)> = vec![
        (none, from_extents(&[(MAX, 1)], 0), many, Ok((1, 0)), 11),
        (none, from_extents(&[(MAX, 1)], 2), many, Err(23), 11),
        (
            none,
            from_extents(&[(0, MAX), (0, 1)], 0),
            many,
            Ok((0, 1)),
            12,
        ),
        (
            none,
            from_extents(&vec![(0, 0); many], 0),
            many,
            Ok((0, 0)),
            1,
        ),
        (none, from_extents(&[(0, 0)], 0), 0, Ok((0, 0)), 1),
        (none, from_extents(&[], 1), 0, Err(23), 23),
        (none, from_extents(&[(0, 1)], 2), 1, Err(23), 23),
        (none, Call::WithRoom { asked: many }, many, Ok((0, 0)), 1),
        (none, Call::WithRoom { asked: 1 }, 0, Ok((0, 0)), 1),
        (roomy, Call::WithRoom { asked: 0 }, 0, Ok((0, 0)), 1),
        (none, extend(0, 0), 0, Ok((0, 0)), 11),
        (roomy, extend(1, 0), 1, Ok((0, 1)), 11),
        (none, extend(1, 0), 0, Err(19), 11),
        (roomy, extend(MAX, 1), 1, Ok((1, 1)), 11),
        (full, extend(0, 1), 1, Ok((0, 1)), 12),
        (narrow, extend(0, 1), 0, Err(19), 12),
        (none, extend(1, 1), 0, Err(19), 19),
        (roomy, extend(0, 1), 0, Ok((1, 0)), 1),
        (none, Call::PublishLen { len: 1 }, 0, Err(23), 23),
        (none, Call::Locate { pos: 0, n: 1 }, 0, Err(23), 23),
        (one, Call::Locate { pos: 1, n: MAX }, 0, Err(23), 23),
        (two, Call::Locate { pos: 0, n: 2 }, 1, Err(24), 24),
        (roomy, Call::Locate { pos: 0, n: 0 }, 0, Ok((0, 0)), 1),
        (roomy, Call::Extents { out: 2 }, 0, Ok((0, 0)), 1),
        (none, Call::Extents { out: 1 }, 0, Ok((0, 0)), 1),
    ];
    for (start, call, places, left, refusal) in &rows {
        let found = asked(*start, call, *places)?;
        if found != (*left, *refusal) {
            return Err(format!(
                "listed difference {call:?} on {start:?} in {places} places: found {found:?}"
            ));
        }
    }
    Ok(rows.len())
}

//! The plan's times, a column for each side. A single call of ours is the library's: its plan is turned from
//! flat numbers, and back where it is accepted. Calls one after another have it turned once.

use super::call::{APPEND, Call, EXTENTS, Entry, Header, Name, Opening, Places, REGIONS, Record};
use super::many::Many;
use super::ours::Ours;
use super::records::LONGEST;
use super::sequence::{Told, name, named};
use super::side::{Maker, Side};
use crate::flat::flat;
use crate::random::Random;
use crate::table::{grows, median};
use oracle::free::Free;
use oracle::map::Map;
use std::cell::RefCell;
use std::hint::black_box;

fn ours() -> Box<dyn Side> {
    Box::new(Ours::timed())
}

/// The sides that are timed.
const SIDES: [(&str, Maker<'static>); 3] = [
    ("model", &super::model),
    ("in place", &super::in_place),
    ("ours", &ours),
];

const BLOCK: u64 = 4096;

fn head() {
    let names = SIDES.map(|(name, _)| format!("{:>14}", format!("{name} ns")));
    println!("\n{:<44} {} {:>8}", "plan", names.join(" "), "ratio");
}

/// Times the same on each side. The ratio is ours to the plan in place.
fn row(operation: &str, time: impl Fn(Maker) -> f64) {
    let [model, in_place, ours] = SIDES.map(|(_, make)| time(make));
    println!(
        "{operation:<44} {model:>14.1} {in_place:>14.1} {ours:>14.1} {:>8.2}",
        ours / in_place
    );
}

/// A time of the Rust's own functions, without a plan.
fn alone(operation: &str, time: f64) {
    println!("{operation:<44} {:>14} {time:>14.1}", "");
}

/// Regions of so many extents in a long container. Their extents stand in turn, so none join; behind
/// all is room.
fn opening(counts: &[usize]) -> Opening {
    let mut told = Told::empty(12, BLOCK, LONGEST);
    let n = counts.len() as u64;
    let at = |turn: u64, i: u64| BLOCK * (1 + 2 * (turn * n + i));
    for (i, &count) in (0..).zip(counts) {
        let extents: Vec<_> = (1..=count as u64).map(|k| (at(k, i), BLOCK)).collect();
        let capacity = count as u64 * BLOCK;
        let entry = Entry {
            kind: APPEND,
            flags: 0,
            extent_count: count as u16,
            header_a: at(0, i),
            header_b: at(0, i) + BLOCK,
            span_start: BLOCK,
            span_end: LONGEST,
            data_size: capacity,
            capacity,
            footprint_seq: i + 1,
        };
        let header = Header {
            region_id: i,
            kind: APPEND,
            flags: 0,
            ready: true,
            log2_block: 12,
            extent_count: count as u16,
        };
        let record = Record {
            number: i,
            tag: i as u32,
            name: Name::new(&name(named(i + 1, 16))),
            entry,
            header,
        };
        told.records.push((record, flat(&extents)));
    }
    told.opening()
}

fn opened(make: Maker, opening: &Opening) -> Box<dyn Side> {
    let mut side = make();
    assert!(side.open(opening).accepted());
    side
}

/// One of so many calls in a row on a plan as it was opened.
fn one(side: &mut dyn Side, calls: u64, mut call: impl FnMut(&mut dyn Side, u64)) -> f64 {
    let many = |_: &mut ()| (0..calls).for_each(|k| call(side, k));
    median(11, || (), many) / calls as f64
}

/// A single call, undone or opened again before each round.
fn once(
    side: Box<dyn Side>,
    undo: impl Fn(&mut dyn Side),
    call: impl Fn(&mut dyn Side) -> bool,
) -> f64 {
    let side = RefCell::new(side);
    median(
        31,
        || undo(&mut **side.borrow_mut()),
        |()| assert!(call(&mut **side.borrow_mut())),
    )
}

/// One of these calls, made one after another.
fn each(make: Maker, opening: &Opening, calls: &[Call]) -> f64 {
    let many = Many::new(calls.to_vec());
    let mut side = opened(make, opening);
    let all = |_: &mut ()| assert_eq!(side.many(&many), calls.len() as u64);
    median(11, || (), all) / calls.len() as f64
}

/// What the Rust's own functions take for a place and for a byte in n regions: `complement` and
/// `first_fit` on the ranges that they hold, and a search among their numbers with `locate` of a map.
fn without_a_plan(n: usize, random: &mut Random) {
    let full = opening(&vec![EXTENTS; n]);
    let side = opened(&super::in_place, &full);
    let regions: Vec<_> = (0..n).map(|i| side.region(i)).collect();
    let held: Vec<_> = regions
        .iter()
        .flat_map(|(record, extents)| {
            let Entry {
                header_a, header_b, ..
            } = record.entry;
            [(header_a, BLOCK), (header_b, BLOCK)]
                .into_iter()
                .chain(extents.iter().copied())
        })
        .collect();
    let place = |held: &mut Vec<_>| {
        let free = Free::complement(BLOCK, LONGEST, held);
        assert!(black_box(free.first_fit(2 * BLOCK, BLOCK, 0)).is_some());
    };
    alone(
        &format!("  Rust's complement and first fit, {n}"),
        median(31, || held.clone(), place),
    );
    let numbers: Vec<u64> = regions.iter().map(|(record, _)| record.number).collect();
    let maps: Vec<_> = regions
        .iter()
        .map(|(record, extents)| Map::from_extents(extents, record.entry.data_size))
        .collect();
    let asked: Vec<(u64, u64)> = (0..1000)
        .map(|_| (random.below(n as u64), random.below(EXTENTS as u64 * BLOCK)))
        .collect();
    let all = |_: &mut ()| {
        for &(id, pos) in &asked {
            let i = numbers.iter().position(|&number| number == id);
            black_box(maps[i.expect("the number is there")].locate(pos, 1));
        }
    };
    alone(
        &format!("  Rust's locate and a search among {n}"),
        median(11, || (), all) / asked.len() as f64,
    );
}

/// Calls on a region that is made and dropped again: with no extents, so many times, and with all extents once.
fn made() -> (Vec<Call>, Vec<Call>) {
    let id = 1000;
    let create = Call::Create {
        id,
        tag: 1000,
        name: name(named(1000, 16)),
    };
    let grows = vec![Call::Grow { id }; EXTENTS];
    let pairs = vec![[create.clone(), Call::Drop { id }]; 50].concat();
    (
        pairs,
        [vec![create], grows, vec![Call::Drop { id }]].concat(),
    )
}

/// Calls that publish more and less of one of n regions.
fn published(n: usize) -> Vec<Call> {
    let one = |k: u64| Call::Publish {
        id: n as u64 / 2,
        len: k % (EXTENTS as u64 + 1) * BLOCK,
    };
    (0..1000).map(one).collect()
}

/// Calls that locate a byte of one of n regions.
fn located(n: usize, random: &mut Random) -> Vec<Call> {
    let mut one = || Call::Locate {
        id: random.below(n as u64),
        pos: random.below(EXTENTS as u64 * BLOCK),
        n: 1,
    };
    (0..1000).map(|_| one()).collect()
}

/// Calls one after another on n regions, or beside one less.
fn one_after_another(n: usize, random: &mut Random) {
    let full = opening(&vec![EXTENTS; n]);
    let others = opening(&vec![EXTENTS; n - 1]);
    let (pairs, grown) = made();
    row(&format!("  create and drop beside {}", n - 1), |make| {
        each(make, &others, &pairs)
    });
    row(
        &format!("  create, 60 grows, drop beside {}", n - 1),
        |make| each(make, &others, &grown),
    );
    let calls = published(n);
    row(&format!("  publish in {n}"), |make| {
        each(make, &full, &calls)
    });
    let calls = located(n, random);
    row(&format!("  locate in {n}"), |make| {
        each(make, &full, &calls)
    });
}

fn regions(n: usize, random: &mut Random) {
    let full = opening(&vec![EXTENTS; n]);
    let others = opening(&vec![EXTENTS; n - 1]);
    let mut counts = vec![EXTENTS; n];
    counts[n / 2] = EXTENTS - 1;
    let growing = opening(&counts);
    let id = n as u64 / 2;
    let of = match n {
        1 => String::from("1 region of 60 extents"),
        n => format!("{n} regions of 60 extents"),
    };
    let new = name(named(1000, 16));
    row(&format!("create beside {} regions of 60", n - 1), |make| {
        let undo = |side: &mut dyn Side| {
            side.drop(1000, Places::ALL);
        };
        once(opened(make, &others), undo, |side| {
            side.create(1000, 1000, &new, Places::ALL).accepted()
        })
    });
    row(&format!("grow, the 60th of {of}"), |make| {
        let again = |side: &mut dyn Side| assert!(side.open(&growing).accepted());
        once(opened(make, &growing), again, |side| {
            side.grow(id, Places::ALL).accepted()
        })
    });
    row(&format!("drop in {of}"), |make| {
        let again = |side: &mut dyn Side| assert!(side.open(&full).accepted());
        once(opened(make, &full), again, |side| {
            side.drop(id, Places::ALL).accepted()
        })
    });
    row(&format!("publish in {of}"), |make| {
        one(&mut *opened(make, &full), 1000, |side, k| {
            let len = k % (EXTENTS as u64 + 1) * BLOCK;
            assert!(side.publish(id, black_box(len)).accepted());
        })
    });
    let positions: Vec<(u64, u64)> = (0..1000)
        .map(|_| (random.below(n as u64), random.below(EXTENTS as u64 * BLOCK)))
        .collect();
    row(&format!("locate in {of}"), |make| {
        one(&mut *opened(make, &full), 1000, |side, k| {
            let (id, pos) = positions[k as usize];
            assert!(side.locate(id, pos, 1, Places::ALL).accepted());
        })
    });
    row(&format!("cap in {of}"), |make| {
        one(&mut *opened(make, &full), 20, |side, k| {
            assert!(side.cap(id as u32, Some(LONGEST - k)).accepted());
        })
    });
    row(&format!("totals of a tag in {of}"), |make| {
        one(&mut *opened(make, &full), 20, |side, _| {
            black_box(side.totals(black_box(id as u32)));
        })
    });
    row(&format!("held of {of}"), |make| {
        one(&mut *opened(make, &full), 20, |side, _| {
            black_box(side.held());
        })
    });
    row(&format!("free of {of}"), |make| {
        one(&mut *opened(make, &full), 20, |side, _| {
            black_box(side.free());
        })
    });
}

/// A copy of the accounts as flat numbers: `grow` makes two, no other call copies so much. A plan's copy stands
/// beside what it takes to turn one.
fn copied() {
    for (whose, bytes) in [
        ("accounts", size_of::<ours::accounts::Accounts>()),
        ("a plan", size_of::<ours::plan::Plan>()),
    ] {
        copy(whose, bytes);
    }
}

fn copy(whose: &str, bytes: usize) {
    let from = vec![7u8; bytes];
    let mut to = from.clone();
    let all = |_: &mut ()| {
        for _ in 0..1000 {
            to.copy_from_slice(black_box(&from));
            black_box(&mut to);
        }
    };
    let time = median(11, || (), all) / 1000.0;
    let of = format!("a copy of {whose}, {bytes} bytes");
    println!("{of:<44} {:>14} {:>14} {time:>14.1}", "", "");
}

/// What a call of ours costs that does nothing else.
fn border() {
    let full = opening(&[EXTENTS; REGIONS]);
    row("last number: a plan is turned", |make| {
        one(&mut *opened(make, &full), 20, |side, _| {
            black_box(side.last_number());
        })
    });
    row("publish of an unknown region, refused", |make| {
        one(&mut *opened(make, &full), 20, |side, _| {
            assert!(!side.publish(black_box(1 << 40), 0).accepted());
        })
    });
}

pub fn bench(random: &mut Random) {
    head();
    for n in [1, 8, REGIONS] {
        regions(n, random);
    }
    border();
    copied();
    println!("one after another, regions of 60 extents: a call");
    for n in [1, 8, REGIONS] {
        one_after_another(n, random);
        without_a_plan(n, random);
    }
    for (name, extents) in [("no", 0), ("60", EXTENTS)] {
        let opening = opening(&[extents; REGIONS]);
        row(&format!("open of 64 records of {name} extents"), |make| {
            median(11, make, |side| assert!(side.open(&opening).accepted()))
        });
    }
}

/// By the number of regions: the calls of ours one after another, and open.
pub fn growth(random: &mut Random) {
    let sizes = [1, 2, 4, 8, 16, 32, REGIONS];
    let (pairs, grown) = made();
    let full = |n: usize| opening(&vec![EXTENTS; n]);
    let others = |n: usize| opening(&vec![EXTENTS; n - 1]);
    grows(
        "create and drop, the last of so many regions",
        &sizes,
        |n| each(&ours, &others(n), &pairs),
    );
    grows("create, 60 grows, drop, the last of them", &sizes, |n| {
        each(&ours, &others(n), &grown)
    });
    grows("publish in so many regions", &sizes, |n| {
        each(&ours, &full(n), &published(n))
    });
    grows("locate in so many regions", &sizes, |n| {
        each(&ours, &full(n), &located(n, random))
    });
    grows("open of so many records of 60 extents", &sizes, |n| {
        let opening = full(n);
        median(11, ours, |side| assert!(side.open(&opening).accepted()))
    });
}

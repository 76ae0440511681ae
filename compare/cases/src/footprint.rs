//! `check_region`, `max_extents` and `runs`.

mod listed;
mod records;
mod runs;
mod smaller;

use crate::flat::{flat, pairs, words};
use crate::lent::Lent;
use crate::random::Random;
use crate::table::{grows, median, row};
use oracle::footprint::{Footprint, check_region};
use oracle::header::{header_bytes, header_view, kind};
use oracle::meta::{MetaError, RegionName, RegionState};
use oracle::meta2::{Entry2, EntryLimits, RegionHeaderView};
use ours::Record;
use records::{Case, giant, usable};
use smaller::smallest;

/// What a call answers, and what it leaves in the slots that it was lent.
#[derive(Debug, PartialEq)]
struct Answer {
    refusal: u64,
    part: Vec<u64>,
    extra: [u64; 2],
    scratch: Vec<u64>,
}

/// Document 01's refusals 1, 2 and 4: the lowest that applies, or 0.
fn refused_before(case: &Case) -> u64 {
    let r = &case.record;
    let (committed, listed) = (r.extent_count as usize, r.header_extent_count as usize);
    let most = ((1 << r.log2_block.clamp(12, 16)) - 192) / 16;
    if case.extents.len() != 2 * listed
        || committed > most
        || listed > most
        || case.scratch < 2 * (committed + 2)
    {
        return 1;
    }
    if !(12..=16).contains(&r.log2_block) || ![9, r.log2_block].contains(&r.header_log2_block) {
        return 2;
    }
    let block = 1u64 << r.log2_block;
    let misplaced = |at: u64| {
        let end = u128::from(at) + u128::from(block);
        at % block != 0 || at < r.span_start || end > u128::from(r.span_end)
    };
    let empty = |e: &(u64, u64)| e.1 == 0;
    if r.table_end > r.span_start
        || r.span_start > r.span_end
        || r.span_end > r.file_len
        || misplaced(r.header_a)
        || misplaced(r.header_b)
        || r.header_a.abs_diff(r.header_b) < block
        || r.data_size > r.capacity
        || pairs(&case.extents).iter().take(committed).any(empty)
    {
        return 4;
    }
    0
}

/// Document 01's number for an error of the Rust.
fn number(error: MetaError) -> u64 {
    match error {
        MetaError::Field("region_id") => 5,
        MetaError::Field("kind") => 6,
        MetaError::Field("flags") => 7,
        MetaError::Field("state") => 8,
        MetaError::Field("extent_count") => 9,
        MetaError::Unaligned => 10,
        MetaError::Field("extent") => 11,
        MetaError::Field("capacity") => 12,
        MetaError::Overlap => 13,
        other => panic!("check_region answers {other:?}"),
    }
}

fn limits(r: &Record) -> EntryLimits {
    EntryLimits {
        log2_block: r.log2_block,
        table_end: r.table_end,
        file_len: r.file_len,
        page_meta_seq: u64::MAX,
    }
}

fn entry(r: &Record) -> Entry2 {
    Entry2 {
        seq: 0,
        kind: kind(r.kind),
        flags: r.flags,
        compat_flags: 0,
        name: RegionName::new("region").expect("a name"),
        tag: 0,
        extent_count: r.extent_count,
        header_a: r.header_a,
        header_b: r.header_b,
        data_size: r.data_size,
        capacity: r.capacity,
        span_start: r.span_start,
        span_end: r.span_end,
        footprint_seq: r.footprint_seq,
    }
}

fn view<'a>(r: &Record, bytes: &'a [u8]) -> RegionHeaderView<'a> {
    let mut view = header_view(bytes);
    let h = &mut view.header;
    h.region_id = r.header_region_id;
    h.kind = kind(r.header_kind);
    h.flags = r.header_flags;
    if !r.header_ready {
        h.state = RegionState::Released;
    }
    h.log2_block = r.header_log2_block;
    h.extent_count = r.header_extent_count;
    view
}

/// What the Rust answers, and the pairs that it leaves in scratch.
fn by_rust(case: &Case, scratch: &[u64]) -> (Result<Footprint, MetaError>, Vec<(u64, u64)>) {
    let r = &case.record;
    let bytes = header_bytes(&pairs(&case.extents));
    let mut lent = pairs(scratch);
    let answer = check_region(
        r.region_id,
        &entry(r),
        &view(r, &bytes),
        &limits(r),
        &mut lent,
    );
    (answer, lent)
}

/// The answer that is due. The Rust is asked where document 01 does not refuse before it: it has
/// neither the entry checks nor the limits there, and finds a short scratch only after the header.
fn due(case: &Case, extra: [u64; 2], scratch: &[u64]) -> Answer {
    let refused = |refusal, scratch: &[u64]| Answer {
        refusal,
        part: Vec::new(),
        extra,
        scratch: scratch.to_vec(),
    };
    let before = refused_before(case);
    if before != 0 {
        return refused(before, scratch);
    }
    let (answer, lent) = by_rust(case, scratch);
    // what the Rust leaves, and the last number of an odd scratch, which it does not get
    let mut left = flat(&lent);
    left.extend(&scratch[left.len()..]);
    match answer {
        Ok(footprint) => Answer {
            refusal: 0,
            part: left[..2 * footprint.ranges].to_vec(),
            extra: footprint.extra.map_or(extra, |e| [e.0, e.1]),
            scratch: left,
        },
        Err(error) => match number(error) {
            // the Rust has begun to fill scratch, document 01 leaves it as it was
            refusal @ (11 | 12) => refused(refusal, scratch),
            refusal => refused(refusal, &left),
        },
    }
}

/// Scratch by `fill_footprint`, which promises every slot, the part by `check_region`.
fn by_ours(case: &Case, extra: [u64; 2], scratch: &[u64]) -> Answer {
    let mut lent = Lent::new(scratch);
    let mut filled = extra;
    let refusal = ours::fill_footprint(&case.record, &case.extents, lent.list(), &mut filled);
    let mut again = Lent::new(scratch);
    let mut handed = extra;
    let (number, part) = ours::check_region(&case.record, &case.extents, again.list(), &mut handed);
    assert_eq!(
        (number, handed),
        (refusal, filled),
        "check_region and fill_footprint differ on {case:?}"
    );
    Answer {
        refusal,
        part: again.back()[..part].to_vec(),
        extra: filled,
        scratch: lent.back(),
    }
}

/// The answer that is due and ours, on slots that hold different numbers before the call.
fn both(case: &Case) -> (Answer, Answer) {
    let extra = [5_000_000, 6_000_000];
    let scratch: Vec<u64> = (7_000_000..).take(case.scratch).collect();
    (due(case, extra, &scratch), by_ours(case, extra, &scratch))
}

fn differs(case: &Case) -> bool {
    let (due, ours) = both(case);
    due != ours
}

/// The refusal, or the smallest record on which the two sides differ.
fn check(case: &Case) -> Result<u64, String> {
    let (due, ours) = both(case);
    if due == ours {
        return Ok(due.refusal);
    }
    let small = smallest(case, differs);
    let (due, ours) = both(&small);
    Err(format!(
        "check_region({small:?}): due is {due:?}, ours gives {ours:?}"
    ))
}

/// How many cases ran, or the smallest input on which the two differ.
pub fn compare(random: &mut Random) -> Result<usize, String> {
    for log2 in 0..=u8::MAX {
        let (rust, ours) = (oracle::meta2::max_extents(log2), ours::max_extents(log2));
        if rust != ours {
            return Err(format!(
                "max_extents({log2}): the Rust answers {rust}, ours {ours}"
            ));
        }
    }
    let mut answered = [0usize; 14];
    let mut try_case = |case: &Case| {
        check(case).map(|refusal| {
            answered[refusal as usize] += 1;
        })
    };
    let reaches = [1 << 10, 1 << 17, 1 << 40, 1 << 62];
    for i in 0..3_000_000 {
        let log2 = 12 + random.below(5) as u8;
        let count = if i % 50 == 0 { 70 } else { 8 };
        let count = random.below(count) as usize;
        let reach = reaches[random.below(4) as usize];
        let spoils = random.below(4);
        try_case(&Case::drawn(log2, count, reach, spoils, random))?;
        if i % 8 == 0 {
            try_case(&giant(log2, random.below(3), random))?;
        }
    }
    for log2 in 12..=16 {
        let most = oracle::meta2::max_extents(log2);
        for count in [60, 61, 300, most - 1, most, most + 1] {
            for i in 0..240 {
                let reach = reaches[i % 4];
                try_case(&Case::drawn(log2, count, reach, i as u64 / 4 % 3, random))?;
            }
        }
        for _ in 0..400 {
            let count = random.below(most as u64) as usize;
            let spoils = random.below(3);
            try_case(&Case::drawn(log2, count, 1 << 62, spoils, random))?;
        }
    }
    let seen: Vec<String> = (0..14)
        .filter(|&k| k != 3)
        .map(|k| format!("{k}: {}", answered[k]))
        .collect();
    println!("check_region by refusal: {}", seen.join(", "));
    if let Some(k) = (0..14).find(|&k| k != 3 && answered[k] == 0) {
        return Err(format!("no region was answered with {k}"));
    }
    Ok(256 + answered.iter().sum::<usize>() + listed::compare()? + runs::compare(random)?)
}

/// Lines `check` and `runs`.
pub fn sample(random: &mut Random) -> String {
    let mut text = String::from(
        "-- footprint.rs: limits, region, entry, header, extents, places of scratch = refusal, extra, length of the part: scratch afterwards.
",
    );
    // how many regions of each refusal, and how many with an extra extent
    let mut wanted = [34, 0, 0, 0, 0, 7, 7, 7, 7, 9, 10, 18, 16, 25, 12];
    let mut large = 3;
    while wanted.iter().any(|&n| n > 0) {
        let log2 = 12 + (random.below(9) / 2) as u8;
        let few = random.below(13).min(random.below(13)) as usize;
        let count = if large > 0 { 60 } else { few };
        let spoils = random.below(3);
        let case = match random.below(16) {
            0 if large == 0 => giant(log2, 0, random),
            1 => Case::drawn(log2, count, 1 << 62, spoils, random),
            _ => Case::drawn(log2, count, 1 << 10, spoils, random),
        };
        let answer = due(&case, [9, 9], &vec![7; case.scratch]);
        let sort = if answer.extra == [9, 9] {
            answer.refusal as usize
        } else {
            14
        };
        if wanted[sort] == 0 || case.scratch > case.extents.len() + 8 {
            continue;
        }
        wanted[sort] -= 1;
        large -= usize::from(large > 0);
        text += &line(&case, &answer);
    }
    text + &runs::sample(random)
}

fn line(case: &Case, answer: &Answer) -> String {
    let r = &case.record;
    let limits = [r.log2_block.into(), r.table_end, r.file_len];
    let entry = [
        r.kind.into(),
        r.flags.into(),
        r.extent_count.into(),
        r.header_a,
        r.header_b,
        r.span_start,
        r.span_end,
        r.data_size,
        r.capacity,
        r.footprint_seq,
    ];
    let header = [
        r.header_region_id,
        r.header_kind.into(),
        r.header_flags.into(),
        r.header_ready.into(),
        r.header_log2_block.into(),
        r.header_extent_count.into(),
    ];
    format!(
        "check 3:{}, {},{},{}, {}:{}, {} = {}{} {}:{}\n",
        words(&limits),
        r.region_id,
        words(&entry),
        words(&header),
        case.extents.len(),
        words(&case.extents),
        case.scratch,
        answer.refusal,
        words(&answer.extra),
        answer.part.len(),
        words(&answer.scratch)
    )
}

/// A region of ascending extents behind its header blocks.
fn ascending(count: usize, random: &mut Random) -> Case {
    loop {
        let case = usable(16, count, 1 << 40, random);
        let r = &case.record;
        if r.header_a < r.header_b && r.header_b < case.extents[0] {
            return case;
        }
    }
}

/// The Rust's time for regions of so many extents, of which so many pairs changed places, and ours.
fn times(count: usize, calls: usize, swaps: usize, random: &mut Random) -> (f64, f64) {
    // several regions, so that no predictor learns one of them
    let regions: Vec<Case> = (0..calls)
        .map(|_| {
            let mut case = ascending(count, random);
            case.swap(swaps, random);
            case
        })
        .collect();
    let before = vec![0; 2 * (count + 2)];
    let bytes: Vec<Vec<u8>> = regions
        .iter()
        .map(|case| header_bytes(&pairs(&case.extents)))
        .collect();
    let decoded: Vec<_> = regions
        .iter()
        .zip(&bytes)
        .map(|(case, bytes)| {
            let r = &case.record;
            (r.region_id, entry(r), view(r, bytes), limits(r))
        })
        .collect();
    let rust = median(
        41,
        || vec![pairs(&before); calls],
        |scratch| {
            for ((id, entry, view, limits), s) in decoded.iter().zip(scratch) {
                let answer = check_region(*id, entry, view, limits, s);
                assert!(answer.is_ok());
            }
        },
    );
    let mine = median(
        41,
        || vec![before.clone(); calls],
        |scratch| {
            for (case, s) in regions.iter().zip(scratch) {
                let mut extra = [0; 2];
                let answer = ours::check_region(&case.record, &case.extents, s, &mut extra);
                assert_eq!(answer, (0, 2 * (count + 2)));
            }
        },
    );
    let one = |t: f64| t / calls as f64;
    (one(rust), one(mine))
}

pub fn bench(random: &mut Random) {
    for (name, count, calls, swaps) in [
        ("4,084 extents, random order", 4084, 16, 4084),
        ("4,084 extents, ascending", 4084, 16, 0),
        ("60 extents, random order", 60, 256, 60),
    ] {
        let (rust, mine) = times(count, calls, swaps, random);
        row(&format!("check_region, {name}"), rust, mine);
    }
    runs::bench(random);
}

pub fn growth(random: &mut Random) {
    let sizes = [8, 60, 500, 4084];
    grows("check_region, extents in random order", &sizes, |n| {
        times(n, 16, n, random).1
    });
    grows("check_region, extents in order", &sizes, |n| {
        times(n, 16, 0, random).1
    });
    runs::growth(random);
}

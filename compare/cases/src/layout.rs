//! `choose_log2_block`.

use crate::random::Random;
use crate::shrink::shrink;
use crate::table::{median, row};
use std::hint::black_box;

/// The five figures and the request.
type Case = ([u32; 5], Option<u32>);

fn by_rust((figures, requested): Case) -> u8 {
    let mut evidence = oracle::block::unknown();
    oracle::block::set(&mut evidence, figures);
    oracle::block::choose_log2_block(&evidence, requested)
}

fn by_ours((figures, requested): Case) -> u8 {
    ours::block::choose_log2_block(figures, requested)
}

/// A case as seven numbers: the figures, whether there is a request, and it.
fn numbers((figures, requested): Case) -> Vec<u64> {
    let request = [u32::from(requested.is_some()), requested.unwrap_or(0)];
    let all = figures.iter().chain(&request);
    all.map(|&n| n.into()).collect()
}

fn case(numbers: &[u64]) -> Case {
    let figures = std::array::from_fn(|i| numbers[i] as u32);
    (figures, (numbers[5] > 0).then_some(numbers[6] as u32))
}

fn differs(numbers: &[u64]) -> bool {
    by_rust(case(numbers)) != by_ours(case(numbers))
}

fn check(one: Case) -> Result<usize, String> {
    if by_rust(one) == by_ours(one) {
        return Ok(1);
    }
    let small = case(&shrink(numbers(one), 0, differs));
    Err(format!(
        "choose_log2_block of the figures {:?} and the request {:?}: the Rust answers {}, ours {}",
        small.0,
        small.1,
        by_rust(small),
        by_ours(small)
    ))
}

/// 0, every power of two and the numbers beside it, and the last numbers of a u32.
fn limits() -> Vec<u32> {
    let mut v = vec![0, u32::MAX, u32::MAX - 1];
    for k in 0..32 {
        let p = 1u32 << k;
        v.extend([p - 1, p, p + 1]);
    }
    v.sort_unstable();
    v.dedup();
    v
}

/// Figures of which only these are not 0.
fn alone(figures: &[(usize, u32)]) -> [u32; 5] {
    let mut all = [0; 5];
    for &(i, n) in figures {
        all[i] = n;
    }
    all
}

/// A number of a random size, at most so many bits.
fn sized(bits: u64, random: &mut Random) -> u32 {
    (random.next() >> 1 >> (63 - random.below(bits + 1))) as u32
}

fn drawn(bits: u64, random: &mut Random) -> Case {
    let figures = std::array::from_fn(|_| sized(bits, random));
    let requested = (random.below(2) == 0).then(|| sized(bits, random));
    (figures, requested)
}

/// How many cases ran, or the smallest input on which the two differ.
pub fn compare(random: &mut Random) -> Result<usize, String> {
    let mut cases = 0;
    let limits = limits();
    let requests = || [None].into_iter().chain(limits.iter().copied().map(Some));
    // each figure at a limit beside each request, and beside each other figure at one
    for i in 0..5 {
        for &n in &limits {
            for requested in requests() {
                cases += check((alone(&[(i, n)]), requested))?;
            }
            for j in i + 1..5 {
                for &m in &limits {
                    cases += check((alone(&[(i, n), (j, m)]), None))?;
                }
            }
        }
    }
    // all that is held to a log, and past it
    for n in 0..=(1 << 17) + 1 {
        for i in 0..5 {
            cases += check((alone(&[(i, n)]), None))?;
        }
        cases += check(([0; 5], Some(n)))?;
    }
    for _ in 0..2_000_000 {
        cases += check(drawn(17, random))?;
        cases += check(drawn(32, random))?;
    }
    Ok(cases)
}

/// Lines `block log 5: five figures, whether there is a request, and it = the log`.
pub fn sample(random: &mut Random) -> String {
    let mut text = String::from(
        "-- layout.rs: the logical and the physical block, the preferred write size, the alignments of memory and offset, whether there is a request, it = the block log.\n",
    );
    let mut cases = vec![([0; 5], None)];
    for n in [
        1,
        4095,
        4096,
        4097,
        8192,
        8193,
        16384,
        32769,
        65535,
        65536,
        65537,
        1 << 31,
        (1 << 31) + 1,
        u32::MAX,
    ] {
        cases.extend((0..5).map(|i| (alone(&[(i, n)]), None)));
        cases.push(([0; 5], Some(n)));
        cases.push(([512, 4096, 8192, 512, 512], Some(n)));
    }
    cases.extend((0..40).map(|_| drawn(16, random)));
    for one in cases {
        let asked: Vec<String> = numbers(one).iter().map(u64::to_string).collect();
        text += &format!("block log 5: {} = {}\n", asked.join(" "), by_rust(one));
    }
    text
}

/// Logs of 4,096 cases in a row, where a call over the border takes as long as the work. The Rust's figures
/// stand in evidence of its own, made before.
pub fn bench(random: &mut Random) {
    let n = 4096;
    let cases: Vec<[u32; 6]> = (0..n)
        .map(|_| std::array::from_fn(|_| random.below(1 << 17) as u32))
        .collect();
    let made: Vec<_> = cases
        .iter()
        .map(|&[a, b, c, d, e, request]| {
            let mut evidence = oracle::block::unknown();
            oracle::block::set(&mut evidence, [a, b, c, d, e]);
            (evidence, request)
        })
        .collect();
    let mut by_rust = 0;
    let rust = median(
        41,
        || (),
        |()| {
            by_rust = black_box(&made)
                .iter()
                .map(|(evidence, request)| {
                    u64::from(oracle::block::choose_log2_block(evidence, Some(*request)))
                })
                .sum();
        },
    );
    let flat = cases.as_flattened();
    let mut by_ours = 0;
    let mine = median(
        41,
        || (),
        |()| by_ours = ours::block::choose_log2_block_each(black_box(flat)),
    );
    assert_eq!(by_rust, by_ours);
    row("choose_log2_block", rust / n as f64, mine / n as f64);
}

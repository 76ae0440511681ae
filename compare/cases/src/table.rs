//! The benchmark's table.

use std::time::Instant;

/// The median of `rounds` timings of `f` in nanoseconds. `prepare` is not timed.
pub fn median<T>(rounds: usize, mut prepare: impl FnMut() -> T, mut f: impl FnMut(&mut T)) -> f64 {
    let mut times: Vec<f64> = (0..rounds)
        .map(|_| {
            let mut input = prepare();
            let start = Instant::now();
            f(&mut input);
            start.elapsed().as_secs_f64() * 1e9
        })
        .collect();
    times.sort_by(f64::total_cmp);
    times[times.len() / 2]
}

pub fn head() {
    println!(
        "{:<44} {:>14} {:>14} {:>8}",
        "operation", "Rust ns", "ours ns", "ratio"
    );
}

pub fn row(operation: &str, rust: f64, ours: f64) {
    println!(
        "{operation:<44} {rust:>14.1} {ours:>14.1} {:>8.2}",
        ours / rust
    );
}

pub fn slowest(times: &[f64]) -> f64 {
    times.iter().copied().fold(0.0, f64::max)
}

pub fn growth_head() {
    println!(
        "{:<44} {:>10} {:>14} {:>10} {:>14}",
        "ours", "n", "ns", "ns / n", "ns / n log2 n"
    );
}

/// A row for each size n: ours alone, by n and by n log2 n.
pub fn grows(operation: &str, sizes: &[usize], mut time: impl FnMut(usize) -> f64) {
    for &n in sizes {
        let time = time(n);
        let each = time / n as f64;
        let by_log = each / (n as f64).log2().max(1.0);
        println!("{operation:<44} {n:>10} {time:>14.1} {each:>10.2} {by_log:>14.3}");
    }
}

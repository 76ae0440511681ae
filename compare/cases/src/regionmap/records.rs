//! The lookup among run records, in whatever order, by document 01's words: of runs that stand by start, the run that
//! holds the position is read; of others some run of the list that starts at or below it, or an empty one at byte 0.

use super::sides::MOST;
use crate::random::Random;
use crate::shrink::{brief, shrink};
use ours::map::{Run, locate_among};

const MAX: u128 = u64::MAX as u128;

const EMPTY: Run = Run {
    start: 0,
    file: 0,
    len: 0,
};

/// Runs, how many bytes are published, the position, the length.
#[derive(Clone, Debug)]
struct Case {
    runs: Vec<Run>,
    published: u64,
    pos: u64,
    n: u64,
}

/// How often each refusal was given, of runs by start and of others, and of runs by start 24 for what lies past the
/// file's last byte.
#[derive(Default)]
struct Tally {
    by_start: [usize; 25],
    others: [usize; 25],
    past_file: usize,
}

/// Where a run ends in the data: as far as it has bytes, and as far as the file has them, since a range's "end is
/// min(offset + length, 2^64 - 1)".
fn ends(run: &Run) -> [u128; 2] {
    let [start, file, len] = [run.start, run.file, run.len].map(u128::from);
    [start + len, start + ((file + len).min(MAX) - file)]
}

impl Case {
    /// From numbers: published, position and length, then each run's three.
    fn told(numbers: &[u64]) -> Option<Self> {
        let (&[published, pos, n], runs) = numbers.split_first_chunk::<3>()?;
        let record = |r: &[u64]| Run {
            start: r[0],
            file: r[1],
            len: r[2],
        };
        let runs = runs.chunks_exact(3).map(record).collect();
        Some(Self {
            runs,
            published,
            pos,
            n,
        })
    }

    fn numbers(&self) -> Vec<u64> {
        let runs = self.runs.iter().flat_map(|r| [r.start, r.file, r.len]);
        [self.published, self.pos, self.n]
            .into_iter()
            .chain(runs)
            .collect()
    }

    fn by_start(&self) -> bool {
        self.runs.is_sorted_by_key(|r| r.start)
    }

    /// The answer that is due where this run is read: document 01's lowest refusal or 0, and the byte or 0.
    fn due(&self, run: &Run) -> (u64, u64) {
        let upto = u128::from(self.pos) + u128::from(self.n);
        let published = u128::from(self.published);
        let capacity = self.runs.last().map_or(0, |r| ends(r)[0]);
        match () {
            () if self.runs.len() > MOST + 1 => (1, 0),
            () if published > capacity || upto > published => (23, 0),
            () if upto > ends(run)[1] => (24, 0),
            () => (0, run.file + (self.pos - run.start)),
        }
    }

    /// The runs that may be read.
    fn may_read(&self) -> Vec<&Run> {
        let mut below = self.runs.iter().filter(|r| r.start <= self.pos);
        if self.by_start() {
            return vec![below.next_back().unwrap_or(&EMPTY)];
        }
        below.chain([&EMPTY]).collect()
    }

    fn ours(&self) -> (u64, u64) {
        locate_among(&self.runs, self.published, self.pos, self.n)
    }

    /// Whether ours answers as one of the runs that may be read says.
    fn alike(&self) -> bool {
        let found = self.ours();
        self.may_read().iter().any(|run| self.due(run) == found)
    }

    /// The smallest case that still differs.
    fn smallest(&self) -> Self {
        let differs = |numbers: &[u64]| Self::told(numbers).is_some_and(|c| !c.alike());
        let small = shrink(self.numbers(), 1, differs);
        Self::told(&small).expect("it differs")
    }
}

impl Tally {
    fn check(&mut self, case: &Case) -> Result<(), String> {
        if !case.alike() {
            let small = case.smallest();
            let due: Vec<_> = small.may_read().iter().map(|r| small.due(r)).collect();
            return Err(format!(
                "locate among {}: due is one of {}, ours gives {:?}",
                brief(format!("{small:?}")),
                brief(format!("{due:?}")),
                small.ours()
            ));
        }
        let refusal = case.ours().0 as usize;
        if !case.by_start() {
            self.others[refusal] += 1;
            return Ok(());
        }
        self.by_start[refusal] += 1;
        let upto = u128::from(case.pos) + u128::from(case.n);
        self.past_file += usize::from(refusal == 24 && upto <= ends(case.may_read()[0])[0]);
        Ok(())
    }

    /// Prints the table; an answer that never occurred is an error.
    fn all_seen(&self) -> Result<usize, String> {
        for (name, counts) in [
            ("by start", &self.by_start),
            ("in other orders", &self.others),
        ] {
            let can = [0, 1, 23, 24];
            let seen = can.map(|k| format!("{k}: {}", counts[k]));
            println!("locate among runs {name} by refusal: {}", seen.join(", "));
            if let Some(k) = can.iter().find(|&&k| counts[k] == 0) {
                return Err(format!("no locate among runs {name} was answered with {k}"));
            }
        }
        println!("24 past the file's last byte: {}", self.past_file);
        if self.past_file == 0 {
            return Err("no range lies past the file's last byte".into());
        }
        Ok(self.by_start.iter().chain(&self.others).sum())
    }

    /// Every position and length up to these, with every published length.
    fn every(&mut self, runs: &[Run], upto: &[u64]) -> Result<(), String> {
        for &published in upto {
            for &pos in upto {
                for &n in upto {
                    let runs = runs.to_vec();
                    self.check(&Case {
                        runs,
                        published,
                        pos,
                        n,
                    })?;
                }
            }
        }
        Ok(())
    }
}

/// Every run of these numbers, the k-th run's file offset 100 further than the one's before it.
fn small_runs(k: u64) -> Vec<Run> {
    let pairs = (0..4).flat_map(|start| (0..3).map(move |len| (start, len)));
    let run = |(start, len)| Run {
        start,
        file: 100 * (k + 1),
        len,
    };
    pairs.map(run).collect()
}

/// Lists of up to three small runs, in every order, and of up to two at the limits.
fn every(tally: &mut Tally) -> Result<(), String> {
    let small: Vec<u64> = (0..6).collect();
    tally.every(&[], &small)?;
    for a in small_runs(0) {
        tally.every(&[a], &small)?;
        for b in small_runs(1) {
            tally.every(&[a, b], &small)?;
            for c in small_runs(2) {
                tally.every(&[a, b, c], &small)?;
            }
        }
    }
    let limits = [0, 1, 1 << 63, u64::MAX - 1, u64::MAX];
    let triples = limits.map(|start| limits.map(|file| limits.map(|len| Run { start, file, len })));
    let runs = triples.as_flattened().as_flattened();
    for &a in runs {
        tally.every(&[a], &limits)?;
        for &b in runs {
            tally.every(&[a, b], &limits)?;
        }
    }
    Ok(())
}

/// So many runs: end to end, with gaps or overlapping; then some of them changed, or all in another order.
fn drawn(many: usize, random: &mut Random) -> Vec<Run> {
    let wide = [4, 4096, 1 << 40][random.below(3) as usize];
    let shape = random.below(4);
    let mut start = 0u64;
    let mut runs = Vec::new();
    for _ in 0..many {
        let len = random.below(wide);
        let file = random.number();
        runs.push(Run { start, file, len });
        start += match shape {
            0 | 1 => len,
            2 => len + random.below(wide),
            _ => random.below(wide),
        };
    }
    if many == 0 {
        return runs;
    }
    match random.below(6) {
        0 => runs.reverse(),
        1 => runs.swap(0, random.below(many as u64) as usize),
        2 => runs[random.below(many as u64) as usize].start = random.number(),
        3 => runs[random.below(many as u64) as usize].len = random.number(),
        _ => {}
    }
    runs
}

/// A position at or beside a run's start or end, a length beside what is left there, and mostly all published.
fn asked(runs: Vec<Run>, random: &mut Random) -> Case {
    let capacity = runs.last().map_or(0, |r| r.start.saturating_add(r.len));
    let near = |x: u64, random: &mut Random| {
        x.wrapping_add(random.below(3))
            .wrapping_sub(random.below(2))
    };
    let some = |random: &mut Random| match runs.len() as u64 {
        0 => EMPTY,
        n => runs[random.below(n) as usize],
    };
    let published = match random.below(4) {
        0 => near(capacity, random),
        1 => random.number(),
        _ => capacity,
    };
    let run = some(random);
    let pos = match random.below(4) {
        0 => near(run.start.wrapping_add(run.len), random),
        1 => run.start.wrapping_add(random.next() % run.len.max(1)),
        2 => random.number(),
        _ => near(run.start, random),
    };
    let n = match random.below(4) {
        0 => near(run.start.wrapping_add(run.len).wrapping_sub(pos), random),
        1 => near(published.wrapping_sub(pos), random),
        _ => random.below(3),
    };
    Case {
        runs,
        published,
        pos,
        n,
    }
}

/// How many cases ran, or the smallest on which the two differ.
pub fn compare(random: &mut Random) -> Result<usize, String> {
    let mut tally = Tally::default();
    every(&mut tally)?;
    for i in 0..1_000_000 {
        let many = if i % 64 == 0 { 70 } else { 9 };
        let runs = drawn(random.below(many) as usize, random);
        tally.check(&asked(runs, random))?;
    }
    for i in 0..4000 {
        let many = [MOST, MOST + 1, MOST + 2, random.below(MOST as u64) as usize][i % 4];
        let runs = drawn(many, random);
        tally.check(&asked(runs, random))?;
    }
    tally.all_seen()
}

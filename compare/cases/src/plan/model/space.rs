//! What is held and free, and where a span is placed.

use super::super::call::{Limits, Range};
use super::super::mistake::Mistake::*;
use super::Model;
use super::region::{Region, Run, end, meet, up};

impl Model {
    /// All that is held, in the order of the file.
    pub fn held_ranges(&self) -> Vec<Range> {
        let block = self.limits.block();
        let footprints = self.regions.iter().flat_map(|r| r.footprint(block));
        let mut held: Vec<Range> = footprints.chain(self.kept.clone()).collect();
        held.sort_unstable();
        held
    }

    /// What of the container behind its table is not held.
    pub fn gaps(&self) -> Vec<Range> {
        let Limits {
            table_end,
            file_len,
            ..
        } = self.limits;
        let (mut at, mut gaps) = (table_end, Vec::new());
        for range in self.held_ranges() {
            let to = range.0.min(file_len);
            if at < to {
                gaps.push((at, to - at));
            }
            at = at.max(end(range));
        }
        if at < file_len {
            gaps.push((at, file_len - at));
        }
        gaps
    }

    /// The lowest free span of so many bytes: a held range that meets it moves it behind itself.
    pub fn lowest(&self, len: u64) -> Option<u64> {
        let block = self.limits.block();
        let mut at = up(self.limits.table_end, block);
        for range in self.held_ranges() {
            if meet((at, len), range) {
                at = up(end(range), block);
            }
        }
        let slack = u64::from(self.makes(FitPastLength));
        (at + len <= self.limits.file_len + slack).then_some(at)
    }

    /// Where a span of so many bytes is placed.
    pub fn place(&self, len: u64) -> Option<u64> {
        let block = self.limits.block();
        let fitting = || {
            self.gaps().into_iter().filter_map(|gap| {
                let at = up(gap.0, block);
                (at + len <= end(gap)).then_some((gap.1, at))
            })
        };
        match self.mistake {
            Some(FitFromBehind) => fitting().next_back().map(|f| f.1),
            Some(FitTightest) => fitting().min().map(|f| f.1),
            Some(FitBehindAll) => {
                let held = self.held_ranges();
                let tail = held.last().map_or(self.limits.table_end, |r| end(*r));
                let at = up(tail, block);
                (at + len <= self.limits.file_len).then_some(at)
            }
            _ => self.lowest(len),
        }
    }

    /// Step n is 16 times 2^(n / 2 rounded down) blocks for n = 0 to 23 and 32,768 above.
    pub fn step(&self, n: usize) -> u64 {
        let blocks = match self.mistake {
            Some(StepDoublesLate) if n < 24 => 16 << (n.saturating_sub(1) / 2),
            Some(StepDoublesOn) => 16 << (n / 2).min(12),
            _ if n < 24 => 16 << (n / 2),
            _ => 32_768,
        };
        blocks * self.limits.block()
    }

    /// Extents that follow each other in the list and in the file are one run.
    pub fn runs(&self, extents: &[Range]) -> Vec<Run> {
        let (mut runs, mut start) = (Vec::<Run>::new(), 0);
        for &(file, len) in extents {
            let gap = match self.mistake {
                Some(JoinOverGap) => self.limits.block(),
                _ => 0,
            };
            match runs.last_mut() {
                Some(run)
                    if (run.file + run.len..=run.file + run.len + gap).contains(&file)
                        && !self.makes(JoinMissed) =>
                {
                    run.len += len;
                }
                _ => runs.push(Run { start, file, len }),
            }
            start += len;
        }
        runs
    }

    /// The run that holds a position: at a join the later one. None without extents.
    pub fn run_of(&self, region: &Region, pos: u64) -> Option<Run> {
        let runs = self.runs(&region.extents);
        runs.into_iter().rev().find(|run| match self.mistake {
            Some(EarlierRunAtJoin) => run.start < pos || run.start == 0,
            _ => run.start <= pos,
        })
    }
}

//! The free map, which the engine keeps to itself.

use crate::engine_footprint::FreeMap;
use crate::meta2::Extent;

pub struct Free(FreeMap);

impl Free {
    #[inline]
    pub fn complement(table_end: u64, len: u64, allocated: &mut [Extent]) -> Self {
        Self(FreeMap::complement(table_end, len, allocated))
    }

    #[inline]
    pub fn first_fit(&self, len: u64, align: u64, skew: u64) -> Option<u64> {
        self.0.first_fit(len, align, skew)
    }

    #[inline]
    pub fn free_bytes(&self) -> u64 {
        self.0.free_bytes()
    }

    /// Document 01's tail.
    pub fn end(&self) -> u64 {
        self.0.end()
    }

    /// The gaps, offset and length of each. They are private: its Debug text has the start and the
    /// end of each, and tail behind them.
    pub fn gaps(&self) -> Vec<Extent> {
        let text = format!("{:?}", self.0);
        let numbers: Vec<u64> = text
            .split(|c: char| !c.is_ascii_digit())
            .filter(|n| !n.is_empty())
            .map(|n| n.parse().expect("a number"))
            .collect();
        let (tail, gaps) = numbers.split_last().expect("tail");
        assert_eq!((*tail, gaps.len() % 2), (self.end(), 0), "{text}");
        gaps.chunks_exact(2).map(|g| (g[0], g[1] - g[0])).collect()
    }
}

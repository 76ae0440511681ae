//! A small generator with a fixed seed (splitmix64).

pub struct Random(u64);

/// The seed where none is given.
pub const SEED: u64 = 20_261_115;

impl Random {
    pub fn new(seed: u64) -> Self {
        Self(seed)
    }

    pub fn next(&mut self) -> u64 {
        self.0 = self.0.wrapping_add(0x9e37_79b9_7f4a_7c15);
        let mut z = self.0;
        z = (z ^ (z >> 30)).wrapping_mul(0xbf58_476d_1ce4_e5b9);
        z = (z ^ (z >> 27)).wrapping_mul(0x94d0_49bb_1331_11eb);
        z ^ (z >> 31)
    }

    /// A number below `n`, which is not 0.
    pub fn below(&mut self, n: u64) -> u64 {
        self.next() % n
    }

    /// A number of a random size: as often small as large.
    pub fn sized(&mut self) -> u64 {
        let bits = self.below(65);
        if bits == 0 {
            0
        } else {
            self.next() >> (64 - bits)
        }
    }

    /// Any number, mostly a small one or one at a limit.
    pub fn number(&mut self) -> u64 {
        match self.below(8) {
            0..3 => self.below(12),
            3 => u64::MAX - self.below(3),
            4 => (1 << 63) - 1 + self.below(3),
            _ => self.sized(),
        }
    }
}

/// 0, every power of two and the numbers beside it, and the last numbers of a u64.
pub fn limits() -> Vec<u64> {
    let mut v = vec![0, u64::MAX, u64::MAX - 1, u64::MAX - 2];
    for k in 0..64 {
        let p = 1u64 << k;
        v.extend([p.wrapping_sub(1), p, p + 1, p.wrapping_neg()]);
    }
    v.sort_unstable();
    v.dedup();
    v
}

//! A small generator of pseudo-random numbers (splitmix64): the same cases for the same seed.

pub struct Random(u64);

impl Random {
    pub fn new(seed: u64) -> Self {
        Self(seed.wrapping_mul(0x9e37_79b9_7f4a_7c15) ^ 0x5151_7e11_ca5e_0001)
    }

    pub fn word(&mut self) -> u64 {
        self.0 = self.0.wrapping_add(0x9e37_79b9_7f4a_7c15);
        let z = (self.0 ^ (self.0 >> 30)).wrapping_mul(0xbf58_476d_1ce4_e5b9);
        let z = (z ^ (z >> 27)).wrapping_mul(0x94d0_49bb_1331_11eb);
        z ^ (z >> 31)
    }

    /// A number below `n`, which is not 0.
    pub fn below(&mut self, n: usize) -> usize {
        (self.word() % n as u64) as usize
    }

    /// True in so many of a hundred.
    pub fn chance(&mut self, percent: usize) -> bool {
        self.below(100) < percent
    }

    pub fn octet(&mut self) -> u8 {
        self.word() as u8
    }

    pub fn pick<T: Copy>(&mut self, from: &[T]) -> T {
        from[self.below(from.len())]
    }

    pub fn octets<const N: usize>(&mut self) -> [u8; N] {
        core::array::from_fn(|_| self.octet())
    }

    pub fn some(&mut self, length: usize) -> Vec<u8> {
        (0..length).map(|_| self.octet()).collect()
    }

    /// An octet above 1.
    pub fn above_one(&mut self) -> u8 {
        match self.below(4) {
            0 => 2,
            1 => 0xff,
            _ => 2 + self.below(254) as u8,
        }
    }

    /// A passkey that may be shown: at most 999,999, the ends among them.
    pub fn passkey(&mut self) -> u32 {
        match self.below(12) {
            0 => 0,
            1 => 999_999,
            2 => self.below(10) as u32,
            _ => self.below(1_000_000) as u32,
        }
    }
}

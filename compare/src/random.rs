//! Numbers from a seed, the same on every machine.

pub struct Random(u64);

impl Random {
    pub fn new(seed: u64) -> Self {
        Random(seed)
    }

    /// The next word (splitmix64).
    pub fn word(&mut self) -> u64 {
        self.0 = self.0.wrapping_add(0x9e37_79b9_7f4a_7c15);
        let mut z = self.0;
        z = (z ^ (z >> 30)).wrapping_mul(0xbf58_476d_1ce4_e5b9);
        z = (z ^ (z >> 27)).wrapping_mul(0x94d0_49bb_1331_11eb);
        z ^ (z >> 31)
    }

    /// A number from `from` to `to`, both counted.
    pub fn between(&mut self, from: u64, to: u64) -> u64 {
        from + self.word() % (to - from + 1)
    }

    pub fn one_in(&mut self, n: u64) -> bool {
        self.word() % n == 0
    }

    pub fn pick<T: Copy>(&mut self, items: &[T]) -> T {
        items[(self.word() % items.len() as u64) as usize]
    }
}

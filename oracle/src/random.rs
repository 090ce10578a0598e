//! A small generator, so that nothing is depended on: splitmix64. The same seed gives the same inputs.

pub struct Random(pub u64);

impl Random {
    pub fn word(&mut self) -> u64 {
        self.0 = self.0.wrapping_add(0x9e37_79b9_7f4a_7c15);
        let mut z = self.0;
        z = (z ^ (z >> 30)).wrapping_mul(0xbf58_476d_1ce4_e5b9);
        z = (z ^ (z >> 27)).wrapping_mul(0x94d0_49bb_1331_11eb);
        z ^ (z >> 31)
    }

    pub fn below(&mut self, n: u64) -> u64 {
        self.word() % n
    }

    pub fn bits(&mut self) -> u32 {
        (self.word() >> 32) as u32
    }

    /// Evenly from low up to high.
    pub fn between(&mut self, low: f32, high: f32) -> f32 {
        let part = (self.word() >> 40) as f32 / 16_777_216.0;
        low + (high - low) * part
    }

    pub fn pick<T: Copy>(&mut self, from: &[T]) -> T {
        from[self.below(from.len() as u64) as usize]
    }
}

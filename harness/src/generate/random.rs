//! Numbers from a seed (splitmix64).

pub struct Random(u64);

impl Random {
    pub fn from_seed(seed: u64) -> Random {
        // Two seeds that lie close together must not give overlapping numbers.
        let mut mixer = Random(seed);
        Random(mixer.next() ^ mixer.next().rotate_left(32))
    }

    pub fn next(&mut self) -> u64 {
        self.0 = self.0.wrapping_add(0x9E37_79B9_7F4A_7C15);
        let mut mixed = self.0;
        mixed = (mixed ^ (mixed >> 30)).wrapping_mul(0xBF58_476D_1CE4_E5B9);
        mixed = (mixed ^ (mixed >> 27)).wrapping_mul(0x94D0_49BB_1331_11EB);
        mixed ^ (mixed >> 31)
    }

    /// 0 to `limit` - 1.
    pub fn below(&mut self, limit: usize) -> usize {
        (self.next() % limit as u64) as usize
    }

    /// `low` to `high`, both included.
    pub fn between(&mut self, low: usize, high: usize) -> usize {
        low + self.below(high - low + 1)
    }

    pub fn one_in(&mut self, n: usize) -> bool {
        self.below(n) == 0
    }

    pub fn pick<T: Copy>(&mut self, from: &[T]) -> T {
        from[self.below(from.len())]
    }

    pub fn bit(&mut self) -> u8 {
        self.below(2) as u8
    }

    pub fn bytes(&mut self, length: usize) -> Vec<u8> {
        (0..length).map(|_| self.next() as u8).collect()
    }

    /// Bits of which about `ones` in 16 are 1.
    pub fn bits(&mut self, length: usize, ones: usize) -> Vec<u8> {
        (0..length).map(|_| u8::from(self.below(16) < ones)).collect()
    }
}

//! Seeded random numbers (splitmix64): the same seed gives the same cases everywhere.

pub struct Random(u64);

impl Random {
    pub fn seeded(seed: u64) -> Self {
        Self(seed)
    }

    pub fn draw(&mut self) -> u64 {
        self.0 = self.0.wrapping_add(0x9e3779b97f4a7c15);
        let mut z = self.0;
        z = (z ^ (z >> 30)).wrapping_mul(0xbf58476d1ce4e5b9);
        z = (z ^ (z >> 27)).wrapping_mul(0x94d049bb133111eb);
        z ^ (z >> 31)
    }

    pub fn below(&mut self, limit: u64) -> u64 {
        self.draw() % limit
    }

    /// From the first to the last, both included.
    pub fn between(&mut self, first: i64, last: i64) -> i64 {
        first + self.below((last - first + 1) as u64) as i64
    }

    pub fn chance(&mut self, one_in: u64) -> bool {
        self.below(one_in) == 0
    }

    pub fn pick<T: Copy>(&mut self, from: &[T]) -> T {
        from[self.below(from.len() as u64) as usize]
    }

    /// A length that is enough, seven times out of eight, or a little or much too small.
    pub fn near(&mut self, enough: usize, unit: usize) -> usize {
        match self.below(32) {
            0 => enough.saturating_sub(1),
            1 => enough.saturating_sub(unit),
            2 => self.below(enough as u64 + 1) as usize,
            3 => 0,
            4 | 5 => enough + 1,
            6 | 7 => enough + unit,
            8..=11 => enough + self.below(40) as usize,
            _ => enough,
        }
    }

    pub fn bytes(&mut self, length: usize) -> Vec<u8> {
        (0..length).map(|_| self.draw() as u8).collect()
    }
}

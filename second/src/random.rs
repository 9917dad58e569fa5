//! A small seeded source of numbers: the same seed gives the same ones on any machine.

/// The source's state. Each number is a mix of a steadily growing sum.
pub struct Random {
    sum: u64,
}

impl Random {
    /// Starts the source from a seed.
    /// Every seed will do, 0 too.
    pub fn new(seed: u64) -> Self {
        Random { sum: seed }
    }

    /// Gives the next 64 bits.
    /// The mix is the one known as splitmix64.
    pub fn bits(&mut self) -> u64 {
        self.sum = self.sum.wrapping_add(0x9E37_79B9_7F4A_7C15);
        let mix = self.sum;
        let mix = (mix ^ (mix >> 30)).wrapping_mul(0xBF58_476D_1CE4_E5B9);
        let mix = (mix ^ (mix >> 27)).wrapping_mul(0x94D0_49BB_1331_11EB);
        mix ^ (mix >> 31)
    }

    /// Gives a number below the limit, which must be above 0.
    /// The high part of a product takes the place of a remainder.
    pub fn below(&mut self, limit: u64) -> u64 {
        ((u128::from(self.bits()) * u128::from(limit)) >> 64) as u64
    }

    /// Gives a number from the lowest to the highest, both included.
    /// The two may be negative, and lie within 32 bits of each other.
    pub fn between(&mut self, lowest: i64, highest: i64) -> i64 {
        lowest + self.below((highest - lowest + 1) as u64) as i64
    }

    /// Says yes in so many of a hundred cases.
    /// 0 never does, 100 always.
    pub fn percent(&mut self, chance: u64) -> bool {
        self.below(100) < chance
    }

    /// Picks one of a list's values.
    /// The list must have at least one.
    pub fn pick<T: Copy>(&mut self, list: &[T]) -> T {
        list[self.below(list.len() as u64) as usize]
    }

    /// Gives one byte.
    /// All values are as likely.
    pub fn byte(&mut self) -> u8 {
        self.below(256) as u8
    }

    /// Gives a list of bytes.
    /// All values are as likely.
    pub fn bytes(&mut self, length: usize) -> Vec<u8> {
        (0..length).map(|_| self.byte()).collect()
    }
}

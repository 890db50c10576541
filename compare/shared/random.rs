//! A small seeded generator (SplitMix64): the same seed always gives the same calls.

pub struct Random {
    state: u64,
}

impl Random {
    pub fn new(seed: u64) -> Random {
        Random { state: seed }
    }

    /// The next 64 bits.
    pub fn draw(&mut self) -> u64 {
        self.state = self.state.wrapping_add(0x9E37_79B9_7F4A_7C15);
        let mut mixed = self.state;
        mixed = (mixed ^ (mixed >> 30)).wrapping_mul(0xBF58_476D_1CE4_E5B9);
        mixed = (mixed ^ (mixed >> 27)).wrapping_mul(0x94D0_49BB_1331_11EB);
        mixed ^ (mixed >> 31)
    }

    /// A number from 0 to `limit` - 1, where `limit` is at most 2^32: that share of 32 random bits.
    fn share(&mut self, limit: u64) -> u64 {
        ((self.draw() >> 32) * limit) >> 32
    }

    /// A number from 0 to `limit` - 1.
    pub fn below(&mut self, limit: usize) -> usize {
        self.share(limit as u64) as usize
    }

    /// A number from `first` to `last`, half the time one of the two limits or the number next to it.
    pub fn within(&mut self, first: u32, last: u32) -> u32 {
        let span = last - first;
        let next = span.min(1);
        let step = match self.below(8) {
            0 => 0,
            1 => next,
            2 => span - next,
            3 => span,
            _ => self.share(u64::from(span) + 1) as u32,
        };
        first + step
    }

    pub fn one_of<T: Copy>(&mut self, choices: &[T]) -> T {
        choices[self.below(choices.len())]
    }

    pub fn shuffled<T>(&mut self, mut values: Vec<T>) -> Vec<T> {
        for last in (1..values.len()).rev() {
            values.swap(last, self.below(last + 1));
        }
        values
    }

    pub fn bytes(&mut self, length: usize) -> Vec<u8> {
        (0..length).map(|_| self.draw() as u8).collect()
    }
}

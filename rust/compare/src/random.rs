//! A small deterministic source of random numbers.

/// Xorshift with a multiplication at the end; the same seed gives the same numbers on every machine.
#[derive(Clone, Debug)]
pub struct Random(u64);

impl Random {
    /// A source with a seed of its own.
    pub fn new(seed: u64) -> Random {
        // The state must not be 0, and near seeds should not give near numbers.
        let mut random = Random(seed.wrapping_mul(0x9E37_79B9_7F4A_7C15) | 1);
        for _ in 0..8 {
            random.number();
        }
        random
    }

    /// The next number.
    pub fn number(&mut self) -> u64 {
        self.0 ^= self.0 >> 12;
        self.0 ^= self.0 << 25;
        self.0 ^= self.0 >> 27;
        self.0.wrapping_mul(0x2545_F491_4F6C_DD1D)
    }

    /// A number below `most`, which isn't 0.
    pub fn below(&mut self, most: u64) -> u64 {
        (self.number() >> 16) % most
    }

    /// True once in `most` times.
    pub fn once_in(&mut self, most: u64) -> bool {
        self.below(most) == 0
    }

    /// One of several values.
    pub fn one_of<T: Copy>(&mut self, values: &[T]) -> T {
        values[self.below(values.len() as u64) as usize]
    }
}

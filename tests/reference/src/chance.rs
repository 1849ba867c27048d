//! Random numbers that a seed repeats.

use crate::sheet::Range;

/// The seed of everything that is kept in the repository.
pub const SEED: u64 = 0x9E37_79B9_7F4A_7C15;

/// A xorshift generator.
pub struct Chance(u64);

impl Chance {
    pub fn seeded(seed: u64) -> Chance {
        assert!(seed != 0);
        Chance(seed)
    }

    fn next(&mut self) -> u64 {
        self.0 ^= self.0 << 13;
        self.0 ^= self.0 >> 7;
        self.0 ^= self.0 << 17;
        self.0.wrapping_mul(0x2545_F491_4F6C_DD1D) >> 16
    }

    /// A whole number between the two, both included.
    pub fn between(&mut self, least: u64, greatest: u64) -> u64 {
        assert!(least <= greatest);
        least + self.next() % (greatest - least + 1)
    }

    /// A place in something of that length.
    pub fn place(&mut self, length: usize) -> usize {
        self.between(0, length as u64 - 1) as usize
    }

    pub fn one_of<T: Copy>(&mut self, choices: &[T]) -> T {
        choices[self.place(choices.len())]
    }

    /// A value of a line.
    pub fn one_in_range(&mut self, range: Range) -> u64 {
        match range {
            Range::Span(least, greatest) => self.between(least, greatest),
            Range::Either(one, other) => self.one_of(&[one, other]),
        }
    }

    /// True once in n times.
    pub fn one_in(&mut self, n: u64) -> bool {
        self.between(1, n) == 1
    }
}

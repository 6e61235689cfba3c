//! The proved library beside `paper`, case by case. A difference stops the run and names the case; the same seed
//! makes the same cases.

pub mod compiling;
pub mod large;
pub mod patterns;
pub mod readings;
pub mod room;
pub mod tables;

/// Numbers that look random: xorshift.
pub struct Random(u64);

impl Random {
    pub fn new(seed: u64) -> Random {
        Random(seed.wrapping_mul(0x9e37_79b9_7f4a_7c15) | 1)
    }

    pub fn below(&mut self, n: u64) -> u64 {
        self.0 ^= self.0 << 13;
        self.0 ^= self.0 >> 7;
        self.0 ^= self.0 << 17;
        (self.0 >> 11) % n
    }

    pub fn one_of<T: Copy>(&mut self, all: &[T]) -> T {
        all[self.below(all.len() as u64) as usize]
    }
}

//! The rows of the benchmarks: fixed pseudo-random words.

use crate::check::{FLAG, LEVEL};

/// Marsaglia's xorshift32.
pub struct Words(u32);

impl Default for Words {
    fn default() -> Words {
        Words(2463534242)
    }
}

impl Iterator for Words {
    type Item = u32;

    fn next(&mut self) -> Option<u32> {
        self.0 ^= self.0 << 13;
        self.0 ^= self.0 >> 17;
        self.0 ^= self.0 << 5;
        Some(self.0)
    }
}

/// Rows for inputs of these types, one behind the other: a flag is a bit, a word is any word, a
/// level lies from 0 to below 1.
pub fn rows(types: &[u8], count: usize) -> Vec<u32> {
    let value = |(own, word): (&u8, u32)| match *own {
        FLAG => word >> 31,
        LEVEL => ((word >> 8) as f32 / 16777216.0).to_bits(),
        _ => word,
    };
    types.iter().cycle().zip(Words::default()).take(count * types.len()).map(value).collect()
}

//! The operators of two operands on 32-bit images (document 01, "The table").

use crate::check::one_nan;

pub fn apply(kind: u8, a: u32, b: u32) -> u32 {
    let (x, y) = (f32::from_bits(a), f32::from_bits(b));
    match kind {
        0x21 => (a != 0 && b != 0) as u32,
        0x22 => (a != 0 || b != 0) as u32,
        0x24 => a.wrapping_add(b),
        0x25 => a.wrapping_sub(b),
        // "word a is ahead of b when (a-b) mod 2^32 is 1 to 2^31-1"
        0x26 => (a.wrapping_sub(b) as i32 > 0) as u32,
        0x27 => (a < b) as u32,
        0x28..=0x2A => (a == b) as u32,
        0x2B => one_nan((x + y).to_bits()),
        0x2C => one_nan((x - y).to_bits()),
        0x2D => one_nan((x * y).to_bits()),
        0x2E => one_nan((x / y).to_bits()),
        _ => (x < y) as u32,
    }
}

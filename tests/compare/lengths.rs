//! Inputs of chosen lengths: two short ones cut at every byte, one whose positions pass 65,535, and
//! one that goes round the largest store.

use crate::counts::Counts;
use crate::hand::{bytes, input, input_a};
use crate::inputs;
use crate::report::compare;
use std::path::Path;

pub fn check(program: &Path, counts: &mut Counts) -> Result<(), String> {
    for (name, whole) in
        [("table A", input_a(&[4294967290, 4, 3])), ("flag and level", two_kinds())]
    {
        for length in 0..=whole.len() {
            let name = format!("{name} cut to {length} bytes");
            compare(program, &name, &whole[..length], None, counts)?;
        }
    }
    let long = input_a(&(0..LONG).map(|row| row.wrapping_mul(0x4000_0123)).collect::<Vec<u32>>());
    compare(program, "table A with 66,000 rows", &long, None, counts)?;
    // 4,096 words, of which the input keeps 4,065; 3,937 closing turns (see tests/tables.py).
    let brimful = input(&inputs::chain(&[127; 31], -127), &(0..4200).collect::<Vec<u32>>());
    compare(program, "the longest chain with 4,200 rows", &brimful, None, counts)
}

const LONG: u32 = 66_000;

/// A flag 0 and a level 1; output 2 is the level of one row later, and trigger 3 repeats the flag.
/// The second of the three rows is refused.
fn two_kinds() -> Vec<u8> {
    let table =
        bytes("01 01 02 02 02 00 02 02 03 02 00 03 00 01 04 02 14 01 01 00 00 80 3F 04 03 13 00");
    input(&table, &[1, 0x7F800001, 2, 0x40000000, 0, 0xC0000000])
}

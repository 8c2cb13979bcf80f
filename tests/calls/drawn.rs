//! Tables of fixed seeds: those that the comparison of the program draws, accepted and refused.

use crate::inputs::input;
use crate::known::KnownTable;
use std::rc::Rc;

/// The comparison of the program takes the seeds below this one.
const FIRST: u64 = 1 << 20;

/// An input begins with kind byte 60 and two bytes of table length; a table that is cut short there
/// is lent as it is.
pub fn table(seed: u64) -> Rc<KnownTable> {
    let bytes = input(FIRST + seed).bytes;
    let table = match bytes[..] {
        [_, low, high, ref rest @ ..] => {
            let length = u16::from_le_bytes([low, high]) as usize;
            &rest[..length.min(rest.len())]
        }
        _ => &[],
    };
    KnownTable::new(table.to_vec())
}

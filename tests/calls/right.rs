//! What a call is lent when nothing is wrong with it, and the noise that stands where document 01
//! leaves the content to the caller.

use crate::call::{Call, Entry, Record};
use crate::known::KnownTable;
use crate::random::Random;
use crate::tables::value;
use std::rc::Rc;

/// A call of a run whose announced words are `store`, with everything as its table wants it. Store
/// and output are longer than they need be at times.
pub fn call(
    random: &mut Random,
    entry: Entry,
    table: &Rc<KnownTable>,
    record: Record,
    mut store: Vec<u32>,
) -> Call {
    let longer = random.pick(&[0, 0, 1, 2, 9, 40]);
    store.extend(noise_words(random, longer));
    let row = row(random, table);
    let length = table.numbers().room + random.pick(&[0, 0, 1, 7, 50]);
    let output = noise_bytes(random, length);
    Call { entry, table: table.clone(), record, store, row, output }
}

/// A row of I words, flags 0 or 1; of any words if the table is refused.
fn row(random: &mut Random, table: &KnownTable) -> Vec<u32> {
    match table.accepted() {
        None => noise_words(random, 2),
        Some((table, _)) => {
            let inputs = &table.types[..table.inputs];
            inputs.iter().map(|&own| value(random, own as u8)).collect()
        }
    }
}

/// A word that is read in an unusual way, as a flag above 1 or a NaN pattern, or any other.
pub fn noise(random: &mut Random) -> u32 {
    match random.below(4) {
        0 => random.pick(&[0, 1, 2, 0x100, 0x8000_0000, 0xFFFF_FFFF]),
        1 => random.pick(&[0x7F80_0001, 0x7FC0_0000, 0xFFC0_0000, 0x7FC0_0001, 0x7F80_0000]),
        _ => random.next() as u32,
    }
}

pub fn noise_words(random: &mut Random, count: usize) -> Vec<u32> {
    (0..count).map(|_| noise(random)).collect()
}

fn noise_bytes(random: &mut Random, count: usize) -> Vec<u8> {
    (0..count).map(|_| random.next() as u8).collect()
}

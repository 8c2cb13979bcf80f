//! A table's bytes together with what the reference's check says of them.

use crate::call::{Numbers, Record};
use reference::announce::{check, Announced};
use reference::table::{Refusal, Table};
use std::rc::Rc;

pub struct KnownTable {
    pub bytes: Vec<u8>,
    pub checked: Result<(Table, Announced), Refusal>,
}

impl KnownTable {
    pub fn new(bytes: Vec<u8>) -> Rc<KnownTable> {
        let checked = check(&bytes);
        Rc::new(KnownTable { bytes, checked })
    }

    pub fn accepted(&self) -> Option<&(Table, Announced)> {
        self.checked.as_ref().ok()
    }

    /// The numbers that a check of this table announces; zeros if it is refused.
    pub fn numbers(&self) -> Numbers {
        let mut numbers = Numbers::default();
        if let Some((_, announced)) = self.accepted() {
            for (stream, &look) in announced.look_ahead.iter().enumerate() {
                numbers.look[stream] = sixteen_bits(look);
                numbers.kept[stream] = sixteen_bits(announced.kept[stream]);
            }
            numbers.words = announced.words as usize;
            numbers.room = announced.room;
            numbers.closing = sixteen_bits(announced.closing);
        }
        numbers
    }

    /// The record of a run that is open on this table and has taken no row.
    pub fn opened(&self) -> Record {
        let Numbers { look, kept, .. } = self.numbers();
        Record { look, kept, ..Record::default() }
    }
}

fn sixteen_bits(number: i64) -> u16 {
    u16::try_from(number).expect("an accepted table's numbers fit into 16 bits")
}

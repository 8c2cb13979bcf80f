//! Table A's run of P2 and P3, reasoned by hand down to the bytes. Reading and library are both
//! held against it, so that they can't misread record, store and output in the same way.

use crate::call::{Call, Entry, Outcome, Record, DRAINING, OVER, READING};
use crate::known::KnownTable;
use crate::{library, reading};

/// Table A, as it stands in document 01.
const TABLE_A: [u8; 36] = [
    0x01, 0x01, 0x01, 0x02, 0x02, 0x01, 0x03, 0x01, 0x00, 0x03, 0x00, 0x01, 0x04, 0x01, 0x25, 0x13,
    0x00, 0x14, 0x00, 0xFF, 0x00, 0x00, 0x00, 0x00, 0x04, 0x02, 0x26, 0x13, 0x00, 0x14, 0x00, 0x01,
    0x07, 0x00, 0x00, 0x00,
];

/// A call on the run so far, and what it leaves: rows, turns done and phase; the store; the bytes.
struct Turn {
    entry: Entry,
    row: &'static [u32],
    left: (u32, u16, u8),
    store: [u32; 5],
    given: &'static [u8],
}

/// The store's fifth word isn't announced and stays.
const BEYOND: u32 = 0xDEAD_BEEF;
const ROOM: usize = 26;

/// P2 and P3: stream 1 is 4294967290, 10, 4294967295; stream 2 is 0, 1, 0 and comes a turn later.
/// Stream 0 has two words, since its kept number is 2.
const RUN: [Turn; 6] = [
    Turn {
        entry: Entry::Open,
        row: &[],
        left: (0, 0, READING),
        store: [0, 0, 0, 0, BEYOND],
        given: &[],
    },
    Turn {
        entry: Entry::Row,
        row: &[0xFFFF_FFFA],
        left: (1, 0, READING),
        store: [0xFFFF_FFFA, 0, 0xFFFF_FFFA, 0, BEYOND],
        given: &[0x50, 1, 0, 0, 0, 0, 0xFA, 0xFF, 0xFF, 0xFF],
    },
    Turn {
        entry: Entry::Row,
        row: &[4],
        left: (2, 0, READING),
        store: [0xFFFF_FFFA, 4, 10, 0, BEYOND],
        given: &[0x50, 1, 1, 0, 0, 0, 10, 0, 0, 0, 0x50, 2, 0, 0, 0, 0, 0, 0, 0, 0],
    },
    Turn {
        entry: Entry::Row,
        row: &[3],
        left: (3, 0, READING),
        store: [3, 4, 0xFFFF_FFFF, 1, BEYOND],
        given: &[
            0x50, 1, 2, 0, 0, 0, 0xFF, 0xFF, 0xFF, 0xFF, 0x50, 2, 1, 0, 0, 0, 1, 0, 0, 0, 0x51, 2,
            1, 0, 0, 0,
        ],
    },
    Turn {
        entry: Entry::Close,
        row: &[],
        left: (3, 0, DRAINING),
        store: [3, 4, 0xFFFF_FFFF, 1, BEYOND],
        given: &[],
    },
    Turn {
        entry: Entry::Drain,
        row: &[],
        left: (3, 1, OVER),
        store: [3, 4, 0xFFFF_FFFF, 0, BEYOND],
        given: &[0x50, 2, 2, 0, 0, 0, 0, 0, 0, 0],
    },
];

pub fn check() -> Result<(), String> {
    let table = KnownTable::new(TABLE_A.to_vec());
    let mut record = Record { phase: 0xFF, ..Record::default() };
    let mut store = vec![BEYOND; 5];
    for (number, turn) in RUN.iter().enumerate() {
        let row = turn.row.to_vec();
        let output = vec![0xEE; ROOM + 1];
        let call = Call { entry: turn.entry, table: table.clone(), record, store, row, output };
        let name = |who| format!("table A, call {number}, {who}");
        turn.compare(&reading::outcome(&call)).map_err(|what| name("the reading") + &what)?;
        let outcome = library::outcome(&call).map_err(|why| name("the library: ") + &why)?;
        turn.compare(&outcome).map_err(|what| name("the library") + &what)?;
        (record, store) = (outcome.record, outcome.store);
    }
    Ok(())
}

impl Turn {
    fn compare(&self, outcome: &Outcome) -> Result<(), String> {
        let (rows, done, phase) = self.left;
        let mut record = Record { rows, done, phase, ..Record::default() };
        record.look[..3].copy_from_slice(&[0, 0, 1]);
        record.kept[..3].copy_from_slice(&[2, 1, 1]);
        let mut output = vec![0xEE; ROOM + 1];
        output[..self.given.len()].copy_from_slice(self.given);
        let same = (outcome.number, outcome.place, outcome.count) == (0, 0, self.given.len())
            && outcome.record == record
            && outcome.store == self.store
            && outcome.output == output;
        match same {
            true => Ok(()),
            false => Err(format!(
                "\nexpected {record:x?} {:x?} {output:x?}\ngot      {:x?} {:x?} {:x?}",
                self.store, outcome.record, outcome.store, outcome.output
            )),
        }
    }
}

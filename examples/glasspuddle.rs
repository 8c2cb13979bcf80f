//! The monitor's five calls, safe for Rust (document 01, "A run"), over include/glasspuddle.h.
//! It needs nothing of `std`. Words in quotation marks are document 01's.
//!
//! What the header leaves to the caller is settled here by types. Slices are valid for their
//! lengths, aligned and never null, empty ones too. The record is private, and the store stays
//! lent to its [`Dock`] as long as that lives, so every call goes on from the one before. What is
//! lent to be changed overlaps nothing, since it is borrowed as `&mut`. The floating-point
//! settings are the ones that Rust itself relies on.

#![no_std]

use core::mem::{align_of, size_of};

/// The version that the header has: major, minor, patch.
pub const VERSION: [u32; 3] = [1, 1, 0];

/// "table 1 to 4,096 bytes"
pub const TABLE_MOST: usize = 4096;
/// "S at most 32"
pub const STREAMS_MOST: usize = 32;
/// "S at most 32" less 1, since "I and O at least 1"
pub const INPUTS_MOST: usize = STREAMS_MOST - 1;
/// "store at most 4,096 words"
pub const STORE_MOST: usize = 4096;
/// "Room: 10 bytes for each output and 6 for each trigger", with 31 triggers
pub const ROOM_MOST: usize = (STREAMS_MOST - 1) * (VALUE_BYTES + TRIGGER_BYTES);

const KIND_VALUE: u8 = 0x50;
const VALUE_BYTES: usize = 10;
const TRIGGER_BYTES: usize = 6;

/// Where an accepted table has I.
const INPUTS_AT: usize = 2;

/// The causes of a refusal, in the order of their numbers from 1.
#[derive(Clone, Copy, Debug, PartialEq, Eq)]
pub enum Cause {
    /// "table length out of its limits"; place 0
    TableLength,
    /// "kind byte or body missing"; place "offset of the record"
    Missing,
    /// "kind not allowed here"; place the same
    Kind,
    /// "a field out of its rule"; place the same
    Field,
    /// "node not of the wanted type"; place the same
    Type,
    /// "node at level 17"; place the same
    Level,
    /// "a loop totals 0 or more"; place the lowest stream of such a loop of at most S edges
    Loop,
    /// "store words over 4,096"; place 0
    StoreWords,
    /// "bytes after the last expression"; place "the first of them"
    BytesAfter,
    /// "not a record of this table"; place 0. A [`Dock`] never gives it.
    Record,
    /// "lent store shorter than announced"; place 0. Only opening gives it.
    ShortStore,
    /// "call not of this phase"; place 0
    Phase,
    /// "row limit reached"; place 0
    RowLimit,
    /// "row hasn't I words"; place 0
    RowLength,
    /// "input flag word above 1"; place "lowest such stream"
    Flag,
    /// "lent output shorter than the room"; place 0
    ShortOutput,
}

const CAUSES: [Cause; 16] = [
    Cause::TableLength,
    Cause::Missing,
    Cause::Kind,
    Cause::Field,
    Cause::Type,
    Cause::Level,
    Cause::Loop,
    Cause::StoreWords,
    Cause::BytesAfter,
    Cause::Record,
    Cause::ShortStore,
    Cause::Phase,
    Cause::RowLimit,
    Cause::RowLength,
    Cause::Flag,
    Cause::ShortOutput,
];

const _: () = {
    let mut number = 1;
    while number <= CAUSES.len() {
        assert!(CAUSES[number - 1] as usize + 1 == number);
        number += 1;
    }
};

/// A refused call. It changed nothing and took no position.
#[derive(Clone, Copy, Debug, PartialEq, Eq)]
pub struct Refusal {
    pub cause: Cause,
    pub place: usize,
}

impl Refusal {
    /// Document 01's number, 1 to 16.
    pub fn number(&self) -> u8 {
        self.cause as u8 + 1
    }
}

fn accepted(number: u8, place: usize) -> Result<(), Refusal> {
    match number {
        0 => Ok(()),
        _ => Err(Refusal { cause: CAUSES[usize::from(number) - 1], place }),
    }
}

/// What the check announces; look-ahead and kept number of each stream are 0 past S.
#[derive(Clone, Copy, Debug, PartialEq, Eq)]
pub struct Announced {
    pub look: [u16; STREAMS_MOST],
    pub kept: [u16; STREAMS_MOST],
    /// Words of store to lend.
    pub words: usize,
    /// Bytes of output to lend.
    pub room: usize,
    /// Calls of [`Dock::drain`] after closing, if there was a row.
    pub closing: u16,
}

#[derive(Clone, Copy, Debug, PartialEq, Eq)]
pub enum Phase {
    Reading,
    Draining,
    Over,
}

/// One record of a turn's output. A trigger follows its true value.
#[derive(Clone, Copy, Debug, PartialEq, Eq)]
pub enum Output {
    Value { stream: u8, position: u32, word: u32 },
    Trigger { stream: u8, position: u32 },
}

/// The records of a turn, read from the lent output.
#[derive(Clone, Debug)]
pub struct Outputs<'o> {
    rest: &'o [u8],
}

fn word_at(bytes: &[u8], at: usize) -> u32 {
    u32::from_le_bytes([bytes[at], bytes[at + 1], bytes[at + 2], bytes[at + 3]])
}

impl Iterator for Outputs<'_> {
    type Item = Output;

    fn next(&mut self) -> Option<Output> {
        let is_value = *self.rest.first()? == KIND_VALUE;
        let bytes = if is_value { VALUE_BYTES } else { TRIGGER_BYTES };
        let (record, rest) = self.rest.split_at(bytes);
        self.rest = rest;
        let (stream, position) = (record[1], word_at(record, 2));
        if is_value {
            Some(Output::Value { stream, position, word: word_at(record, 6) })
        } else {
            Some(Output::Trigger { stream, position })
        }
    }
}

/// Checks a table: what it announces.
pub fn check(table: &[u8]) -> Result<Announced, Refusal> {
    // SAFETY: the pointer and the length are those of a slice.
    let c = unsafe { glasspuddle_check(table.as_ptr(), table.len()) };
    accepted(c.number, c.place)?;
    let Checked { look, kept, words, room, closing, .. } = c;
    Ok(Announced { look, kept, words, room, closing })
}

/// A run: its record, and the table and the store that it was opened with.
///
/// Document 01's P4: one row 5 of table A.
///
/// ```
/// use glasspuddle::{check, Dock, Output, Phase};
/// let table = [
///     1, 1, 1, 2, 2, 1, 3, 1, 0, 3, 0, 1, 4, 1, 0x25, 0x13, 0, 0x14, 0, 0xFF, 0, 0, 0, 0, //
///     4, 2, 0x26, 0x13, 0, 0x14, 0, 1, 7, 0, 0, 0,
/// ];
/// let announced = check(&table).unwrap();
/// let (mut store, mut out) = ([0; 4], [0; 26]);
/// assert_eq!((announced.words, announced.room, announced.closing), (4, 26, 1));
/// let mut dock = Dock::open(&table, &mut store).unwrap();
/// let given: Vec<Output> = dock.row(&[5], &mut out).unwrap().collect();
/// assert_eq!(given, [Output::Value { stream: 1, position: 0, word: 5 }]);
/// dock.close().unwrap();
/// let given: Vec<Output> = dock.drain(&mut out).unwrap().collect();
/// assert_eq!(given, [Output::Value { stream: 2, position: 0, word: 0 }]);
/// assert_eq!(dock.phase(), Phase::Over);
/// ```
///
/// The store can't be touched, or lent twice, while the run goes on:
///
/// ```compile_fail,E0506
/// let mut store = [0; 4];
/// let mut dock = glasspuddle::Dock::open(&[], &mut store).unwrap();
/// store[0] = 1;
/// dock.close().unwrap();
/// ```
pub struct Dock<'l> {
    record: Record,
    table: &'l [u8],
    store: &'l mut [u32],
}

// SAFETY of the calls below: each pointer and length are those of a slice or of the record. Record,
// store and output are borrowed as `&mut`, table and row as `&`, so none overlaps another.
impl<'l> Dock<'l> {
    /// Opens a run: "puts 0 into exactly the announced store words".
    pub fn open(table: &'l [u8], store: &'l mut [u32]) -> Result<Self, Refusal> {
        let none = [0; STREAMS_MOST];
        let mut record = Record { look: none, kept: none, rows: 0, done: 0, phase: 0 };
        let (words, length) = (store.as_mut_ptr(), store.len());
        let told =
            unsafe { glasspuddle_open(&mut record, table.as_ptr(), table.len(), words, length) };
        accepted(told.number, told.place)?;
        Ok(Dock { record, table, store })
    }

    /// Takes a row, and gives the values of its turn. `out` needs the announced room.
    pub fn row<'o>(&mut self, row: &[u32], out: &'o mut [u8]) -> Result<Outputs<'o>, Refusal> {
        let told = unsafe {
            glasspuddle_row(
                &mut self.record,
                self.table.as_ptr(),
                self.table.len(),
                self.store.as_mut_ptr(),
                self.store.len(),
                row.as_ptr(),
                row.len(),
                out.as_mut_ptr(),
                out.len(),
            )
        };
        outputs(told, out)
    }

    /// Closes the run: the rows taken are all there are.
    pub fn close(&mut self) -> Result<(), Refusal> {
        let table = self.table;
        let told = unsafe { glasspuddle_close(&mut self.record, table.as_ptr(), table.len()) };
        accepted(told.number, told.place)
    }

    /// Takes a closing turn, while the phase is draining.
    pub fn drain<'o>(&mut self, out: &'o mut [u8]) -> Result<Outputs<'o>, Refusal> {
        let told = unsafe {
            glasspuddle_drain(
                &mut self.record,
                self.table.as_ptr(),
                self.table.len(),
                self.store.as_mut_ptr(),
                self.store.len(),
                out.as_mut_ptr(),
                out.len(),
            )
        };
        outputs(told, out)
    }

    pub fn phase(&self) -> Phase {
        match self.record.phase {
            0 => Phase::Reading,
            1 => Phase::Draining,
            _ => Phase::Over,
        }
    }

    /// The rows taken.
    pub fn rows(&self) -> u32 {
        self.record.rows
    }

    /// I, the words of a row.
    pub fn inputs(&self) -> usize {
        usize::from(self.table[INPUTS_AT])
    }
}

fn outputs(told: Told, out: &[u8]) -> Result<Outputs<'_>, Refusal> {
    accepted(told.number, told.place)?;
    Ok(Outputs { rest: &out[..told.count] })
}

// The structs of include/glasspuddle.h.

#[repr(C)]
struct Record {
    look: [u16; STREAMS_MOST],
    kept: [u16; STREAMS_MOST],
    rows: u32,
    done: u16,
    phase: u8,
}

#[repr(C)]
struct Told {
    number: u8,
    place: usize,
    count: usize,
}

#[repr(C)]
struct Checked {
    number: u8,
    place: usize,
    look: [u16; STREAMS_MOST],
    kept: [u16; STREAMS_MOST],
    words: usize,
    room: usize,
    closing: u16,
}

const _: () = assert!(size_of::<Record>() == 136 && align_of::<Record>() == 4);
const _: () = assert!(size_of::<Told>() == 24 && size_of::<Checked>() == 168);

#[link(name = "dock", kind = "static")]
extern "C" {
    fn glasspuddle_check(table: *const u8, table_length: usize) -> Checked;
    fn glasspuddle_open(
        record: *mut Record,
        table: *const u8,
        table_length: usize,
        store: *mut u32,
        store_length: usize,
    ) -> Told;
    fn glasspuddle_row(
        record: *mut Record,
        table: *const u8,
        table_length: usize,
        store: *mut u32,
        store_length: usize,
        row: *const u32,
        row_length: usize,
        out: *mut u8,
        out_length: usize,
    ) -> Told;
    fn glasspuddle_close(record: *mut Record, table: *const u8, table_length: usize) -> Told;
    fn glasspuddle_drain(
        record: *mut Record,
        table: *const u8,
        table_length: usize,
        store: *mut u32,
        store_length: usize,
        out: *mut u8,
        out_length: usize,
    ) -> Told;
}

//! One call of the library: what is lent to it, and all that it can answer or change.

use crate::known::KnownTable;
use std::rc::Rc;

/// S is at most 32; the record's numbers past S are 0.
pub const MOST_STREAMS: usize = 32;

#[derive(Clone, Copy, PartialEq, Eq, PartialOrd, Ord, Debug)]
pub enum Entry {
    Check,
    Open,
    Row,
    Close,
    Drain,
}

pub const ENTRIES: [Entry; 5] = [Entry::Check, Entry::Open, Entry::Row, Entry::Close, Entry::Drain];

pub const READING: u8 = 0;
pub const DRAINING: u8 = 1;
pub const OVER: u8 = 2;

/// "The record holds each stream's look-ahead and kept number (0 past S), the rows taken, the phase
/// (reading, draining, over) and closing turns done." The fields stand as in the library.
#[repr(C)]
#[derive(Clone, Copy, Default, PartialEq, Eq, Debug)]
pub struct Record {
    pub look: [u16; MOST_STREAMS],
    pub kept: [u16; MOST_STREAMS],
    pub rows: u32,
    pub done: u16,
    pub phase: u8,
}

/// Everything that a call may be lent. An entry that takes no store, row or output isn't lent it.
#[derive(Clone)]
pub struct Call {
    pub entry: Entry,
    pub table: Rc<KnownTable>,
    pub record: Record,
    pub store: Vec<u32>,
    pub row: Vec<u32>,
    pub output: Vec<u8>,
}

/// What the check announces; zeros after a refusal and for every other entry.
#[derive(Clone, Copy, Default, PartialEq, Eq, Debug)]
pub struct Numbers {
    pub look: [u16; MOST_STREAMS],
    pub kept: [u16; MOST_STREAMS],
    pub words: usize,
    pub room: usize,
    pub closing: u16,
}

/// All that there is to see after a call. Record, store and output have their whole length.
pub struct Outcome {
    pub number: u32,
    pub place: usize,
    pub count: usize,
    pub numbers: Numbers,
    pub record: Record,
    pub store: Vec<u32>,
    pub output: Vec<u8>,
}

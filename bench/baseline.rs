//! The two plain Rust interpreters of a table, std only and no proofs, and what both benchmarks
//! need beside them. `anew` and `once` take the arguments of the library's calls and give what
//! those give.

pub mod anew;
mod announce;
pub mod check;
mod edges;
pub mod expressions;
pub mod lines;
pub mod once;
mod output;
pub mod rows;
pub mod run;
mod scan;
pub mod tables;
mod value;

pub const MOST_STREAMS: usize = 32;
pub const MOST_WORDS: usize = 4096;

/// The largest room: one input and 31 triggers.
pub const MOST_ROOM: usize = 31 * (output::VALUE + output::TRIGGER);

pub const READING: u8 = 0;
pub const DRAINING: u8 = 1;
pub const OVER: u8 = 2;

/// The record, as it lies at the library's boundary.
#[repr(C)]
#[derive(Clone, Default, PartialEq)]
pub struct Record {
    pub look: [u16; MOST_STREAMS],
    pub kept: [u16; MOST_STREAMS],
    pub rows: u32,
    pub done: u16,
    pub phase: u8,
}

/// A refusal's number and place.
#[derive(Clone, Copy, Debug, PartialEq)]
pub struct Refusal {
    pub number: u8,
    pub place: u16,
}

/// What a call answers: the bytes written, or a refusal.
pub type Told = Result<usize, Refusal>;

/// The refusal where the rule doesn't hold, at place 0.
pub fn demand(rule: bool, number: u8) -> Result<(), Refusal> {
    if rule {
        Ok(())
    } else {
        Err(Refusal { number, place: 0 })
    }
}

/// The calls of a run. All three that are compared have them with these arguments.
pub trait Calls {
    /// What the calls are given as the table: its bytes, or what was made of them before the run.
    type Table;
    fn read(bytes: &[u8]) -> Result<Self::Table, Refusal>;
    fn open(record: &mut Record, table: &Self::Table, store: &mut [u32]) -> Told;
    fn row(
        record: &mut Record,
        table: &Self::Table,
        store: &mut [u32],
        row: &[u32],
        out: &mut [u8],
    ) -> Told;
    fn close(record: &mut Record, table: &Self::Table) -> Told;
    fn drain(record: &mut Record, table: &Self::Table, store: &mut [u32], out: &mut [u8]) -> Told;
}

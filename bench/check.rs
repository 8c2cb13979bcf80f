//! The check of a table for the baselines (document 01, "The table" and "What the check
//! announces"). It assumes nothing of the bytes.

use crate::announce::announce;
use crate::edges::Edges;
use crate::scan::scan;
use crate::{Refusal, MOST_STREAMS};

pub const FLAG: u8 = 0;
pub const WORD: u8 = 1;
pub const LEVEL: u8 = 2;

pub const LONGEST_TABLE: usize = 4096;

/// The whole check: the scan (1 to 6 and 9), then 7, then 8. It fills in a new `Checked`, which
/// counts only if nothing is refused.
pub fn check(bytes: &[u8], checked: &mut Checked) -> Result<(), Refusal> {
    if bytes.is_empty() || bytes.len() > LONGEST_TABLE {
        return Err(Refusal { number: 1, place: 0 });
    }
    let mut edges = Edges::new();
    scan(bytes, checked, &mut edges)?;
    announce(checked, edges.all())
}

/// What an accepted table says and announces; entries past the last stream are 0.
#[derive(Default)]
pub struct Checked {
    pub inputs: usize,
    pub streams: usize,
    pub types: [u8; MOST_STREAMS],
    pub triggers: [bool; MOST_STREAMS],
    /// Where each output's expression starts in the table.
    pub starts: [u16; MOST_STREAMS],
    pub look: [u16; MOST_STREAMS],
    pub kept: [u16; MOST_STREAMS],
    /// Where each stream's part of the store starts.
    pub parts: [u16; MOST_STREAMS],
    pub words: usize,
    pub room: usize,
    pub closing: u16,
    /// The outputs, each after those that it reads on the same turn; `streams - inputs` of them.
    pub order: [u8; MOST_STREAMS],
}

/// "Any NaN pattern [..] is read as 7FC00000."
pub fn one_nan(bits: u32) -> u32 {
    if bits & 0x7FFF_FFFF > 0x7F80_0000 {
        0x7FC0_0000
    } else {
        bits
    }
}

pub fn word_at(bytes: &[u8], at: usize) -> u32 {
    u32::from_le_bytes([bytes[at], bytes[at + 1], bytes[at + 2], bytes[at + 3]])
}

/// The column "Body", for the kinds of nodes.
pub const fn body_length(kind: u8) -> usize {
    match kind {
        0x10 | 0x13 => 1,
        0x11 | 0x12 => 4,
        0x14 => 6,
        _ => 0,
    }
}

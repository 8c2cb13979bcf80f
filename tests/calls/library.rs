//! The library's entries, and one safe call of any of them. Whatever is lent stands between fences,
//! so that a write outside of it is seen.

use crate::call::{Call, Entry, Numbers, Outcome, Record, MOST_STREAMS};

#[repr(C)]
struct Told {
    number: u8,
    place: usize,
    count: usize,
}

#[repr(C)]
struct Checked {
    number: u8,
    place: usize,
    look: [u16; MOST_STREAMS],
    kept: [u16; MOST_STREAMS],
    words: usize,
    room: usize,
    closing: u16,
}

// A slice is a pointer and a number of elements.
extern "C" {
    fn glasspuddle_check(table: *const u8, length: usize) -> Checked;
    fn glasspuddle_open(
        record: *mut Record,
        table: *const u8,
        length: usize,
        store: *mut u32,
        words: usize,
    ) -> Told;
    fn glasspuddle_row(
        record: *mut Record,
        table: *const u8,
        length: usize,
        store: *mut u32,
        words: usize,
        row: *const u32,
        row_words: usize,
        output: *mut u8,
        bytes: usize,
    ) -> Told;
    fn glasspuddle_close(record: *mut Record, table: *const u8, length: usize) -> Told;
    fn glasspuddle_drain(
        record: *mut Record,
        table: *const u8,
        length: usize,
        store: *mut u32,
        words: usize,
        output: *mut u8,
        bytes: usize,
    ) -> Told;
}

/// Makes the call. The error says what was written that wasn't lent to be written.
pub fn outcome(call: &Call) -> Result<Outcome, String> {
    let mut lent = Lent {
        table: Fenced::new(&call.table.bytes, 0xA5),
        record: Fenced::new(&[call.record], FENCE_RECORD),
        store: Fenced::new(&call.store, 0xA5A5_A5A5),
        row: Fenced::new(&call.row, 0x5A5A_5A5A),
        output: Fenced::new(&call.output, 0xA5),
    };
    let (told, numbers) = lent.call(call.entry);
    untouched("table", &call.table.bytes, &lent.table.back("table")?)?;
    untouched("row", &call.row, &lent.row.back("row")?)?;
    Ok(Outcome {
        number: told.number as u32,
        place: told.place,
        count: told.count,
        numbers,
        record: lent.record.back("record")?[0],
        store: lent.store.back("store")?,
        output: lent.output.back("output")?,
    })
}

fn untouched<T: PartialEq>(what: &str, lent: &[T], back: &[T]) -> Result<(), String> {
    match lent == back {
        true => Ok(()),
        false => Err(format!("the {what} was written to")),
    }
}

struct Lent {
    table: Fenced<u8>,
    record: Fenced<Record>,
    store: Fenced<u32>,
    row: Fenced<u32>,
    output: Fenced<u8>,
}

impl Lent {
    fn call(&mut self, entry: Entry) -> (Told, Numbers) {
        let (table, length) = self.table.lent();
        let (record, _) = self.record.lent();
        let (store, words) = self.store.lent();
        let (row, row_words) = self.row.lent();
        let (output, bytes) = self.output.lent();
        // Every pointer is that of a live buffer of the length beside it, and no two overlap.
        let told = unsafe {
            match entry {
                Entry::Check => return told_and_numbers(glasspuddle_check(table, length)),
                Entry::Open => glasspuddle_open(record, table, length, store, words),
                Entry::Row => glasspuddle_row(
                    record, table, length, store, words, row, row_words, output, bytes,
                ),
                Entry::Close => glasspuddle_close(record, table, length),
                Entry::Drain => {
                    glasspuddle_drain(record, table, length, store, words, output, bytes)
                }
            }
        };
        (told, Numbers::default())
    }
}

/// The check's answer in two parts.
fn told_and_numbers(checked: Checked) -> (Told, Numbers) {
    let Checked { number, place, look, kept, words, room, closing } = checked;
    (Told { number, place, count: 0 }, Numbers { look, kept, words, room, closing })
}

/// Seven elements on each side: bytes then begin at an odd address, words at one that no larger
/// alignment fits.
const FENCE: usize = 7;

const FENCE_RECORD: Record = Record {
    look: [0xA5A5; MOST_STREAMS],
    kept: [0xA5A5; MOST_STREAMS],
    rows: 0xA5A5_A5A5,
    done: 0xA5A5,
    phase: 0xA5,
};

struct Fenced<T> {
    all: Vec<T>,
    fence: T,
}

impl<T: Copy + PartialEq> Fenced<T> {
    fn new(lent: &[T], fence: T) -> Fenced<T> {
        let all = [&[fence; FENCE], lent, &[fence; FENCE]].concat();
        Fenced { all, fence }
    }

    fn lent(&mut self) -> (*mut T, usize) {
        let end = self.all.len() - FENCE;
        let lent = &mut self.all[FENCE..end];
        (lent.as_mut_ptr(), lent.len())
    }

    /// What was lent, as it is now.
    fn back(self, what: &str) -> Result<Vec<T>, String> {
        let end = self.all.len() - FENCE;
        let whole = |fence: &[T]| fence.iter().all(|element| *element == self.fence);
        if !whole(&self.all[..FENCE]) {
            return Err(format!("something before the {what} was written to"));
        }
        if !whole(&self.all[end..]) {
            return Err(format!("something after the {what} was written to"));
        }
        Ok(self.all[FENCE..end].to_vec())
    }
}

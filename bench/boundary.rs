//! The library through its C boundary: the archive that `sh tools/build` makes. A slice is two
//! arguments, pointer and number of elements.

use baseline::{Calls, Record, Refusal, MOST_STREAMS};

#[repr(C)]
struct Told {
    number: u8,
    place: usize,
    count: usize,
}

/// What the check answers.
#[repr(C)]
pub struct Checked {
    pub number: u8,
    pub place: usize,
    pub look: [u16; MOST_STREAMS],
    pub kept: [u16; MOST_STREAMS],
    pub words: usize,
    pub room: usize,
    pub closing: u16,
}

extern "C" {
    fn glasspuddle_check(table: *const u8, length: usize) -> Checked;
    fn glasspuddle_open(
        record: *mut Record,
        table: *const u8,
        table_length: usize,
        store: *mut u32,
        store_length: usize,
    ) -> Told;
    fn glasspuddle_row(
        record: *mut Record,
        table: *const u8,
        table_length: usize,
        store: *mut u32,
        store_length: usize,
        row: *const u32,
        row_length: usize,
        out: *mut u8,
        out_length: usize,
    ) -> Told;
    fn glasspuddle_close(record: *mut Record, table: *const u8, table_length: usize) -> Told;
    fn glasspuddle_drain(
        record: *mut Record,
        table: *const u8,
        table_length: usize,
        store: *mut u32,
        store_length: usize,
        out: *mut u8,
        out_length: usize,
    ) -> Told;
}

impl From<Told> for baseline::Told {
    fn from(told: Told) -> baseline::Told {
        match told.number {
            0 => Ok(told.count),
            number => Err(Refusal { number, place: told.place as u16 }),
        }
    }
}

pub fn check(table: &[u8]) -> Checked {
    // SAFETY: here and below, a Rust slice is valid for its length and no two that are lent
    // overlap.
    unsafe { glasspuddle_check(table.as_ptr(), table.len()) }
}

pub struct Library;

impl Calls for Library {
    type Table = Vec<u8>;

    fn read(bytes: &[u8]) -> Result<Vec<u8>, Refusal> {
        Ok(bytes.to_vec())
    }

    fn open(record: &mut Record, table: &Vec<u8>, store: &mut [u32]) -> baseline::Told {
        let (table_at, store_at) = (table.as_ptr(), store.as_mut_ptr());
        unsafe { glasspuddle_open(record, table_at, table.len(), store_at, store.len()) }.into()
    }

    fn row(
        record: &mut Record,
        table: &Vec<u8>,
        store: &mut [u32],
        row: &[u32],
        out: &mut [u8],
    ) -> baseline::Told {
        unsafe {
            glasspuddle_row(
                record,
                table.as_ptr(),
                table.len(),
                store.as_mut_ptr(),
                store.len(),
                row.as_ptr(),
                row.len(),
                out.as_mut_ptr(),
                out.len(),
            )
        }
        .into()
    }

    fn close(record: &mut Record, table: &Vec<u8>) -> baseline::Told {
        unsafe { glasspuddle_close(record, table.as_ptr(), table.len()) }.into()
    }

    fn drain(
        record: &mut Record,
        table: &Vec<u8>,
        store: &mut [u32],
        out: &mut [u8],
    ) -> baseline::Told {
        unsafe {
            glasspuddle_drain(
                record,
                table.as_ptr(),
                table.len(),
                store.as_mut_ptr(),
                store.len(),
                out.as_mut_ptr(),
                out.len(),
            )
        }
        .into()
    }
}

//! The baseline that works as document 01's calls must: each call tests the table first and the
//! record against it, then evaluates over the table's bytes. It keeps nothing between calls.

use crate::check::{body_length, check, one_nan, word_at, Checked, FLAG, LEVEL};
use crate::output::Output;
use crate::value::apply;
use crate::{demand, Calls, Record, Refusal, Told, DRAINING, OVER, READING};

pub struct Anew;

impl Calls for Anew {
    type Table = Vec<u8>;

    fn read(bytes: &[u8]) -> Result<Vec<u8>, Refusal> {
        Ok(bytes.to_vec())
    }

    fn open(record: &mut Record, table: &Vec<u8>, store: &mut [u32]) -> Told {
        *record = Record::default();
        let mut checked = Checked::default();
        check(table, &mut checked)?;
        demand(store.len() >= checked.words, 11)?;
        store[..checked.words].fill(0);
        record.look = checked.look;
        record.kept = checked.kept;
        Ok(0)
    }

    fn row(
        record: &mut Record,
        table: &Vec<u8>,
        store: &mut [u32],
        row: &[u32],
        out: &mut [u8],
    ) -> Told {
        let mut checked = Checked::default();
        test(record, table, &mut checked)?;
        demand(store.len() >= checked.words, 11)?;
        demand(record.phase == READING, 12)?;
        demand(record.rows < u32::MAX, 13)?;
        demand(row.len() == checked.inputs, 14)?;
        for (stream, &word) in row.iter().enumerate() {
            if checked.types[stream] == FLAG && word > 1 {
                return Err(Refusal { number: 15, place: stream as u16 });
            }
        }
        demand(out.len() >= checked.room, 16)?;
        let turn = record.rows as i64;
        record.rows += 1;
        let mut turn = Turn { table, checked: &checked, store, known: turn + 1, turn };
        // An input has no edges, so its look-ahead is 0.
        for (stream, &word) in row.iter().enumerate() {
            let level = checked.types[stream] == LEVEL;
            let place = turn.place(stream, turn.turn);
            turn.store[place] = if level { one_nan(word) } else { word };
        }
        Ok(turn.run(out))
    }

    fn close(record: &mut Record, table: &Vec<u8>) -> Told {
        let mut checked = Checked::default();
        test(record, table, &mut checked)?;
        demand(record.phase == READING, 12)?;
        record.phase = if record.rows == 0 || checked.closing == 0 { OVER } else { DRAINING };
        Ok(0)
    }

    fn drain(record: &mut Record, table: &Vec<u8>, store: &mut [u32], out: &mut [u8]) -> Told {
        let mut checked = Checked::default();
        test(record, table, &mut checked)?;
        demand(store.len() >= checked.words, 11)?;
        demand(record.phase == DRAINING, 12)?;
        demand(out.len() >= checked.room, 16)?;
        let known = record.rows as i64;
        let turn = known + record.done as i64;
        record.done += 1;
        if record.done == checked.closing {
            record.phase = OVER;
        }
        Ok(Turn { table, checked: &checked, store, known, turn }.run(out))
    }
}

/// "Every call tests the table first"; then whether the record is one of this table (10).
fn test(record: &Record, table: &[u8], checked: &mut Checked) -> Result<(), Refusal> {
    check(table, checked)?;
    let phase_agrees = match record.phase {
        READING => record.done == 0,
        DRAINING => record.rows > 0 && record.done < checked.closing,
        OVER => record.done == if record.rows > 0 { checked.closing } else { 0 },
        _ => false,
    };
    let same = record.look == checked.look && record.kept == checked.kept;
    demand(same && phase_agrees, 10)
}

/// A turn, with all that it reads: the table and what it says, the rows known, and the store.
struct Turn<'a> {
    table: &'a [u8],
    checked: &'a Checked,
    store: &'a mut [u32],
    known: i64,
    turn: i64,
}

impl Turn<'_> {
    /// The store word for this position.
    fn place(&self, stream: usize, position: i64) -> usize {
        let kept = self.checked.kept[stream] as u32;
        self.checked.parts[stream] as usize + (position as u32 % kept) as usize
    }

    /// The position that this turn gives of this stream, where it lies in the trace.
    fn due(&self, stream: usize) -> Option<i64> {
        let position = self.turn - self.checked.look[stream] as i64;
        (0..self.known).contains(&position).then_some(position)
    }

    /// The bytes written.
    fn run(&mut self, out: &mut [u8]) -> usize {
        let checked = self.checked;
        for &stream in &checked.order[..checked.streams - checked.inputs] {
            let stream = stream as usize;
            if let Some(position) = self.due(stream) {
                let (value, _) = self.value(checked.starts[stream] as usize, position);
                let place = self.place(stream, position);
                self.store[place] = value;
            }
        }
        let mut out = Output::new(out);
        for stream in checked.inputs..checked.streams {
            if let Some(position) = self.due(stream) {
                let value = self.store[self.place(stream, position)];
                out.put(stream, position as u32, value, checked.triggers[stream]);
            }
        }
        out.count()
    }

    /// "A store word read as a flag is true exactly when it isn't 0", and a NaN is the one NaN: the
    /// store is the caller's between calls.
    fn read(&self, stream: usize, position: i64) -> u32 {
        let word = self.store[self.place(stream, position)];
        self.reading(stream, word)
    }

    fn reading(&self, stream: usize, word: u32) -> u32 {
        match self.checked.types[stream] {
            FLAG => (word != 0) as u32,
            LEVEL => one_nan(word),
            _ => word,
        }
    }

    /// The value of the expression at this place of the table, and the place behind it. Both
    /// branches of an if are evaluated: none can fail, and the place behind it is wanted.
    fn value(&self, at: usize, position: i64) -> (u32, usize) {
        let kind = self.table[at];
        let body = at + 1;
        let behind = body + body_length(kind);
        let leaf = match kind {
            0x10 => self.table[body] as u32,
            0x11 => word_at(self.table, body),
            0x12 => one_nan(word_at(self.table, body)),
            0x13 => self.read(self.table[body] as usize, position),
            0x14 => {
                let stream = self.table[body] as usize;
                let there = position + self.table[body + 1] as i8 as i64;
                if (0..self.known).contains(&there) {
                    self.read(stream, there)
                } else {
                    self.reading(stream, word_at(self.table, body + 2))
                }
            }
            0x20 => {
                let (a, behind) = self.value(behind, position);
                return ((a == 0) as u32, behind);
            }
            0x23 => {
                let (holds, behind) = self.value(behind, position);
                let (then, behind) = self.value(behind, position);
                let (other, behind) = self.value(behind, position);
                return (if holds != 0 { then } else { other }, behind);
            }
            _ => {
                let (a, behind) = self.value(behind, position);
                let (b, behind) = self.value(behind, position);
                return (apply(kind, a, b), behind);
            }
        };
        (leaf, behind)
    }
}

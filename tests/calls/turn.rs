//! One turn over the store: which values are due, where they lie, and the records that give them.
//! Assumes an accepted table, a store as long as announced and, while reading, a row of I words.

use crate::expression::{image, image_of_word};
use reference::announce::Announced;
use reference::table::Table;

pub struct Turn<'a> {
    pub table: &'a Table,
    pub announced: &'a Announced,
    pub turn: i64,
    /// N once closing has fixed it.
    pub end: Option<i64>,
    pub row: &'a [u32],
    pub store: &'a mut [u32],
}

impl Turn<'_> {
    /// "A row or closing turn writes exactly the values, inputs included, whose position is that
    /// turn less their look-ahead and lies in the trace." The bytes are what it gives.
    pub fn given(mut self) -> Vec<u8> {
        let mut written = vec![false; self.table.streams()];
        for stream in 0..self.table.streams() {
            self.write(stream, &mut written);
        }
        let mut bytes = Vec::new();
        for stream in self.table.inputs..self.table.streams() {
            if let Some(position) = self.due(stream) {
                let value = self.store[self.place(stream, position)];
                self.give(stream, position, value, &mut bytes);
            }
        }
        bytes
    }

    /// The stream's position at this turn, if it lies in the trace.
    fn due(&self, stream: usize) -> Option<i64> {
        let position = self.turn - self.announced.look_ahead[stream];
        self.in_trace(position).then_some(position)
    }

    /// "where that lies in 0 to N-1 (any from 0 on while reading)"
    fn in_trace(&self, position: i64) -> bool {
        position >= 0 && self.end.is_none_or(|end| position < end)
    }

    /// "The store holds one part for each stream, in stream order, as long as its kept number n;
    /// the value for position p lies in word p mod n of its part."
    fn place(&self, stream: usize, position: i64) -> usize {
        let start: i64 = self.announced.kept[..stream].iter().sum();
        (start + position % self.announced.kept[stream]) as usize
    }

    /// Writes the stream's due value, once. A due value that it reads is written before it.
    fn write(&mut self, stream: usize, written: &mut [bool]) {
        let Some(position) = self.due(stream) else { return };
        if written[stream] {
            return;
        }
        written[stream] = true;
        let table = self.table;
        let own = table.types[stream];
        let value = match stream.checked_sub(table.inputs) {
            None => image_of_word(own, self.row[stream]),
            Some(output) => image(own, &table.equations[output], &mut |other, offset| {
                self.read(other, position + offset, written)
            }),
        };
        let place = self.place(stream, position);
        self.store[place] = value;
    }

    /// The store word of this stream's value at this position, or nothing outside of the trace:
    /// "at(v, k) at position j is v at j+k, or the default where j+k is below 0 or not below N."
    fn read(&mut self, stream: usize, position: i64, written: &mut [bool]) -> Option<u32> {
        if !self.in_trace(position) {
            return None;
        }
        if self.due(stream) == Some(position) {
            self.write(stream, written);
        }
        Some(self.store[self.place(stream, position)])
    }

    /// "each as record 50 (stream, position in 4 bytes, value word); a trigger stream's true value
    /// is followed by record 51 (stream, position)."
    fn give(&self, stream: usize, position: i64, value: u32, bytes: &mut Vec<u8>) {
        let four = u32::try_from(position).expect("a position is below the row limit");
        bytes.extend([0x50, stream as u8]);
        bytes.extend(four.to_le_bytes());
        bytes.extend(value.to_le_bytes());
        if self.table.triggers[stream - self.table.inputs] && value != 0 {
            bytes.extend([0x51, stream as u8]);
            bytes.extend(four.to_le_bytes());
        }
    }
}

//! A run that nothing disturbed, beside the reference's model of the whole trace: each value is
//! given once, on the turn of its position plus its look-ahead.

use crate::call::{Call, Entry, Outcome};
use crate::known::KnownTable;
use reference::announce::Announced;
use reference::model::Model;
use reference::table::Table;

#[derive(Default)]
pub struct Trace {
    rows: Vec<Vec<u32>>,
    /// What each turn gave.
    turns: Vec<Vec<u8>>,
}

/// A value as it was given, and whether record 51 followed.
#[derive(PartialEq, Debug)]
struct Given {
    stream: usize,
    position: usize,
    value: u32,
    fired: bool,
}

impl Trace {
    /// Takes over an accepted row, closing or draining.
    pub fn take(&mut self, call: &Call, outcome: &Outcome) {
        if call.entry == Entry::Row {
            self.rows.push(call.row.clone());
        }
        if call.entry != Entry::Close {
            self.turns.push(outcome.output[..outcome.count].to_vec());
        }
    }

    /// The number of values compared, or the first turn that gave something else. What is given
    /// while reading is the same for every trace that begins with these rows; a run that is over
    /// has given everything.
    pub fn compare(&self, table: &KnownTable, over: bool) -> Result<usize, String> {
        let (table, announced) = table.accepted().expect("a run has an accepted table");
        let mut model = Model::new(table, &self.rows);
        let mut values = 0;
        for (turn, bytes) in self.turns.iter().enumerate() {
            let expected = owed(table, announced, &mut model, turn);
            let got = decoded(bytes)?;
            if expected != got {
                return Err(format!(
                    "the model of {} rows, turn {turn}\nexpected {expected:x?}\ngot      {got:x?}",
                    self.rows.len()
                ));
            }
            values += got.len();
        }
        let whole = self.rows.len() * table.equations.len();
        match over && values != whole {
            true => Err(format!("the run is over with {values} of {whole} values given")),
            false => Ok(values),
        }
    }
}

/// "Turn t gives y's value at t - look-ahead(y) where that lies in 0 to N-1", in stream order.
fn owed(table: &Table, announced: &Announced, model: &mut Model, turn: usize) -> Vec<Given> {
    let mut owed = Vec::new();
    for (output, &trigger) in table.triggers.iter().enumerate() {
        let stream = table.inputs + output;
        let due = turn.checked_sub(announced.look_ahead[stream] as usize);
        if let Some(position) = due.filter(|&position| position < model.length()) {
            let value = model.value(stream, position);
            owed.push(Given { stream, position, value, fired: trigger && value != 0 });
        }
    }
    owed
}

/// Records 50 and 51 read back.
fn decoded(mut bytes: &[u8]) -> Result<Vec<Given>, String> {
    let number = |part: &[u8]| u32::from_le_bytes([part[0], part[1], part[2], part[3]]);
    let mut given: Vec<Given> = Vec::new();
    while !bytes.is_empty() {
        let length = if bytes[0] == 0x50 { 10 } else { 6 };
        let (record, rest) = bytes.split_at_checked(length).ok_or("half a record was given")?;
        let (stream, position) = (record[1] as usize, number(&record[2..6]) as usize);
        match (record[0], given.last_mut()) {
            (0x50, _) => {
                given.push(Given { stream, position, value: number(&record[6..]), fired: false })
            }
            (0x51, Some(last)) if (last.stream, last.position) == (stream, position) => {
                last.fired = true
            }
            _ => return Err(format!("record {:02x} was given out of place", record[0])),
        }
        bytes = rest;
    }
    Ok(given)
}

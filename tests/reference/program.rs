//! The lines of the program: document 01, "The program" and the order of values in "A run".
//! The whole input is at hand; nothing is kept from one call to the next.

use crate::announce::{check, Announced};
use crate::model::Model;
use crate::table::{Refusal, Table, Type, LONGEST_TABLE};

/// What the program prints for one input, if that is all of it.
pub struct Answer {
    pub text: String,
    /// How many bytes of `text` are owed before the end of the input is seen: the lines of every
    /// complete row and of every refusal.
    pub early: usize,
    /// The program ends here, whatever bytes might follow.
    pub stopped: bool,
}

/// "kind byte 60, two bytes of table length".
const HEAD: usize = 3;

pub fn answer(input: &[u8]) -> Answer {
    if input.first().is_some_and(|&kind| kind != 0x60) {
        return refused(Refusal { number: 3, place: 0 });
    }
    if input.len() < HEAD {
        return cut(input.len());
    }
    let length = u16::from_le_bytes([input[1], input[2]]) as usize;
    // "A length that refusal 1 covers isn't read further."
    if length == 0 || length > LONGEST_TABLE {
        return refused(Refusal { number: 1, place: 0 });
    }
    let Some(bytes) = input.get(HEAD..HEAD + length) else {
        return cut(input.len());
    };
    match check(bytes) {
        Err(refusal) => refused(refusal),
        Ok((table, announced)) => run(&table, &announced, input, HEAD + length),
    }
}

/// A refusal that ends the program with no `end` line.
fn refused(refusal: Refusal) -> Answer {
    let text = refusal_line(refusal);
    Answer { early: text.len(), text, stopped: true }
}

/// An input that stops inside the head or the table: no `end` line either.
fn cut(read: usize) -> Answer {
    Answer { text: format!("s {read}\n"), early: 0, stopped: false }
}

fn refusal_line(refusal: Refusal) -> String {
    format!("r {} {}\n", refusal.number, refusal.place)
}

/// All rows, then the closing. Rows begin at `start` and have I words with no framing.
fn run(table: &Table, announced: &Announced, input: &[u8], start: usize) -> Answer {
    let rows = input[start..].chunks_exact(4 * table.inputs);
    let part_row = rows.remainder();
    let rows: Vec<Vec<u32>> = rows.map(words).collect();
    let accepted: Vec<Vec<u32>> =
        rows.iter().filter(|row| flag_fault(table, row).is_none()).cloned().collect();
    let mut model = Model::new(table, &accepted);
    let mut text = String::new();
    let mut turn = 0;
    for row in &rows {
        match flag_fault(table, row) {
            // "A refused row is reported and skipped"; it takes no position.
            Some(place) => text += &refusal_line(Refusal { number: 15, place }),
            None => {
                text += &turn_lines(table, announced, &mut model, turn);
                turn += 1;
            }
        }
    }
    let early = text.len();
    if !part_row.is_empty() {
        text += &format!("s {}\n", input.len());
    }
    // Closing turns are N, N+1 and so on; with N = 0 no position lies in the trace.
    for closing_turn in turn..turn + announced.closing {
        text += &turn_lines(table, announced, &mut model, closing_turn);
    }
    text += &format!("end {}\n", model.length());
    Answer { text, early, stopped: false }
}

fn words(row: &[u8]) -> Vec<u32> {
    row.chunks_exact(4).map(|b| u32::from_le_bytes([b[0], b[1], b[2], b[3]])).collect()
}

/// Refusal 15: "input flag word above 1", at the lowest such stream.
fn flag_fault(table: &Table, row: &[u32]) -> Option<usize> {
    (0..table.inputs).find(|&stream| table.types[stream] == Type::Flag && row[stream] > 1)
}

/// "Turn t gives y's value at t - look-ahead(y) where that lies in 0 to N-1 ... Values come in
/// stream order ...; a trigger stream's true value is followed by record 51".
fn turn_lines(table: &Table, announced: &Announced, model: &mut Model, turn: i64) -> String {
    let mut text = String::new();
    for stream in table.inputs..table.streams() {
        let due = turn - announced.look_ahead[stream];
        if due < 0 || due >= model.length() as i64 {
            continue;
        }
        let value = model.value(stream, due as usize);
        text += &format!("v {stream} {due} {value:08x}\n");
        if table.triggers[stream - table.inputs] && value != 0 {
            text += &format!("t {stream} {due}\n");
        }
    }
    text
}

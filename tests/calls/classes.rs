//! The classes that a call belongs to, seen from what was lent and answered. Each of them must
//! occur, else the test could hardly find a fault there.

use crate::call::{Call, Entry, Outcome, Record, DRAINING, OVER, READING};
use reference::announce::Announced;
use reference::table::{one_nan, Node, Table, Type};

pub const UNDISTURBED: &str = "undisturbed runs to their end";
pub const IN_MODEL: &str = "values as in the model";
pub const CHANGED_TABLE: &str = "turn on a changed table";

/// All of them, in the order of the printed line; the first three are counted by the session.
pub const CLASSES: [&str; 41] = [
    UNDISTURBED,
    IN_MODEL,
    CHANGED_TABLE,
    "table of 0 bytes",
    "table of 1 byte",
    "table of 4096 bytes accepted",
    "table of 4097 bytes",
    "2 streams accepted",
    "32 streams accepted",
    "16 levels accepted",
    "4096 store words accepted",
    "only look-aheads differ",
    "only kept numbers differ",
    "only numbers past S differ",
    "reading with turns done",
    "draining with no rows",
    "draining with all turns done",
    "over with other turns done",
    "over with no rows and turns done",
    "phase byte above 2",
    "store one word short",
    "store exact",
    "store longer",
    "row empty",
    "row one word short",
    "row one word long",
    "output empty",
    "output one byte short",
    "output exact",
    "output longer",
    "row accepted after 4294967294 rows",
    "closing turn after 4294967295 rows",
    "row with an unusual NaN",
    "turn over a flag word above 1",
    "turn over an unusual NaN",
    "turn that gives nothing",
    "turn with a trigger",
    "closed with no rows",
    "closed with no closing turns",
    "closed to draining",
    "last closing turn",
];

type Class = (&'static str, bool);

/// Classes and whether the call belongs to them.
pub fn classes(call: &Call, outcome: &Outcome) -> Vec<Class> {
    let length = call.table.bytes.len();
    let mut classes = vec![
        ("table of 0 bytes", length == 0),
        ("table of 1 byte", length == 1),
        ("table of 4097 bytes", length == 4097),
    ];
    if let Some((table, announced)) = call.table.accepted() {
        classes.extend(of_table(length, table, announced));
        classes.extend(of_lengths(call, table, announced));
        if !matches!(call.entry, Entry::Check | Entry::Open) {
            classes.extend(of_record(call, table, announced));
        }
        match call.entry {
            _ if outcome.number != 0 => {}
            Entry::Close => classes.extend(of_closing(outcome)),
            Entry::Row | Entry::Drain => classes.extend(of_turn(call, table, announced, outcome)),
            Entry::Check | Entry::Open => {}
        }
    }
    classes
}

fn of_table(length: usize, table: &Table, announced: &Announced) -> Vec<Class> {
    vec![
        ("table of 4096 bytes accepted", length == 4096),
        ("2 streams accepted", table.streams() == 2),
        ("32 streams accepted", table.streams() == 32),
        ("16 levels accepted", table.equations.iter().map(levels).max() == Some(16)),
        ("4096 store words accepted", announced.words == 4096),
    ]
}

/// "The outermost node is level 1."
fn levels(node: &Node) -> usize {
    match node {
        Node::Operator { operands, .. } => 1 + operands.iter().map(levels).max().unwrap_or(0),
        _ => 1,
    }
}

fn of_lengths(call: &Call, table: &Table, announced: &Announced) -> Vec<Class> {
    let takes = |entries: &[Entry]| entries.contains(&call.entry);
    let takes_store = takes(&[Entry::Open, Entry::Row, Entry::Drain]);
    let takes_output = takes(&[Entry::Row, Entry::Drain]);
    let takes_row = takes(&[Entry::Row]);
    let (store, words) = (call.store.len() as i64, announced.words);
    let (row, inputs) = (call.row.len(), table.inputs);
    let (output, room) = (call.output.len(), announced.room);
    vec![
        ("store one word short", takes_store && store + 1 == words),
        ("store exact", takes_store && store == words),
        ("store longer", takes_store && store > words),
        ("row empty", takes_row && row == 0),
        ("row one word short", takes_row && row + 1 == inputs),
        ("row one word long", takes_row && row == inputs + 1),
        ("output empty", takes_output && output == 0),
        ("output one byte short", takes_output && output + 1 == room),
        ("output exact", takes_output && output == room),
        ("output longer", takes_output && output > room),
    ]
}

/// The ways in which a record isn't of the table, each with nothing else wrong.
fn of_record(call: &Call, table: &Table, announced: &Announced) -> Vec<Class> {
    let Record { look, kept, rows, done, phase } = call.record;
    let right = call.table.opened();
    let own = ..table.streams();
    let differ = (look[own] != right.look[own], kept[own] != right.kept[own]);
    if look != right.look || kept != right.kept {
        return vec![
            ("only look-aheads differ", differ == (true, false)),
            ("only kept numbers differ", differ == (false, true)),
            ("only numbers past S differ", differ == (false, false)),
        ];
    }
    let (done, closing) = (done as i64, announced.closing);
    let no_rows = rows == 0;
    vec![
        ("reading with turns done", phase == READING && done > 0),
        ("draining with no rows", phase == DRAINING && no_rows && done < closing),
        ("draining with all turns done", phase == DRAINING && !no_rows && done == closing),
        ("over with other turns done", phase == OVER && !no_rows && done != closing),
        ("over with no rows and turns done", phase == OVER && no_rows && done > 0),
        ("phase byte above 2", phase > OVER),
    ]
}

fn of_closing(outcome: &Outcome) -> Vec<Class> {
    let Record { rows, phase, .. } = outcome.record;
    vec![
        ("closed with no rows", rows == 0),
        ("closed with no closing turns", rows > 0 && phase == OVER),
        ("closed to draining", phase == DRAINING),
    ]
}

/// A NaN pattern is unusual if it isn't the single one. Turns over such words or over flag words
/// above 1 are on a store that no run left so.
fn of_turn(call: &Call, table: &Table, announced: &Announced, outcome: &Outcome) -> Vec<Class> {
    let flag_above_one = |(own, word): (&Type, &u32)| *own == Type::Flag && *word > 1;
    let unusual = |(own, word): (&Type, &u32)| *own == Type::Level && one_nan(*word) != *word;
    let kept = announced.kept.iter().map(|&kept| kept as usize);
    let parts = table.types.iter().zip(kept);
    let words = parts.flat_map(|(own, kept)| std::iter::repeat_n(own, kept)).zip(&call.store);
    let inputs = table.types.iter().zip(&call.row);
    let reading = call.entry == Entry::Row;
    let rows = call.record.rows;
    vec![
        ("row accepted after 4294967294 rows", reading && rows == 0xFFFF_FFFE),
        ("closing turn after 4294967295 rows", !reading && rows == 0xFFFF_FFFF),
        ("row with an unusual NaN", reading && inputs.clone().any(unusual)),
        ("turn over a flag word above 1", words.clone().any(flag_above_one)),
        ("turn over an unusual NaN", words.clone().any(unusual)),
        ("turn that gives nothing", outcome.count == 0),
        // A value takes 10 bytes; five triggers at once aren't seen.
        ("turn with a trigger", outcome.count % 10 != 0),
        ("last closing turn", outcome.record.phase == OVER),
    ]
}

//! What document 01 says a call answers and changes: "A run" and "Refusal numbers" 10 to 16.
//! The table's own refusals and numbers are the reference's. Assumes nothing of what is lent.

use crate::call::{Call, Entry, Numbers, Outcome, Record, DRAINING, OVER, READING};
use crate::turn::Turn;
use reference::announce::Announced;
use reference::table::{Refusal, Table, Type};

const MOST_ROWS: u32 = 4_294_967_295;

pub fn outcome(call: &Call) -> Outcome {
    // "Every call tests the table first."
    match &call.table.checked {
        Err(refusal) => refused(call, *refusal),
        Ok((table, announced)) => match refusals(call, table, announced).next() {
            Some(refusal) => refused(call, refusal),
            None => accepted(call, table, announced),
        },
    }
}

/// The numbers of all tests that this call fails, in their order; only the first is answered.
pub fn faults(call: &Call) -> Vec<u32> {
    match &call.table.checked {
        Err(refusal) => vec![refusal.number],
        Ok((table, announced)) => {
            refusals(call, table, announced).map(|refusal| refusal.number).collect()
        }
    }
}

/// "A refusal hands back the record it got (the check and opening give an all-zero one ...), writes
/// 0 bytes, and leaves store and output untouched." The check isn't lent a record.
fn refused(call: &Call, refusal: Refusal) -> Outcome {
    let record = if call.entry == Entry::Open { Record::default() } else { call.record };
    Outcome { number: refusal.number, place: refusal.place, record, ..as_lent(call) }
}

/// "An accepted call answers number 0 and place 0."
fn as_lent(call: &Call) -> Outcome {
    Outcome {
        number: 0,
        place: 0,
        count: 0,
        numbers: Numbers::default(),
        record: call.record,
        store: call.store.clone(),
        output: call.output.clone(),
    }
}

type Test = fn(&Call, &Table, &Announced) -> Option<Refusal>;

/// "Opening goes on with 11; closing with 10, 12; a row with 10 to 16 in order; draining with 10,
/// 11, 12, 16."
fn refusals<'a>(
    call: &'a Call,
    table: &'a Table,
    announced: &'a Announced,
) -> impl Iterator<Item = Refusal> + 'a {
    let tests: &'static [Test] = match call.entry {
        Entry::Check => &[],
        Entry::Open => &[store_too_short],
        Entry::Row => &[
            not_of_this_table,
            store_too_short,
            not_of_this_phase,
            row_limit_reached,
            not_a_row,
            not_a_flag,
            output_too_short,
        ],
        Entry::Close => &[not_of_this_table, not_of_this_phase],
        Entry::Drain => &[not_of_this_table, store_too_short, not_of_this_phase, output_too_short],
    };
    tests.iter().filter_map(move |test| test(call, table, announced))
}

fn refuse_if(fault: bool, number: u32) -> Option<Refusal> {
    fault.then_some(Refusal { number, place: 0 })
}

/// "A record is of the table when its numbers are those announced, rows are within the limit, and
/// the phase agrees". The limit is the largest number of 32 bits, so no rows are beyond it.
fn not_of_this_table(call: &Call, _: &Table, announced: &Announced) -> Option<Refusal> {
    let Record { look, kept, rows, done, phase } = call.record;
    let numbers = call.table.numbers();
    let done = done as i64;
    // "reading with 0 turns done; draining with N at least 1 and done below the closing turns; over
    // with exactly all done if N is at least 1, exactly 0 if N = 0."
    let agrees = match phase {
        READING => done == 0,
        DRAINING => rows >= 1 && done < announced.closing,
        OVER if rows >= 1 => done == announced.closing,
        OVER => done == 0,
        _ => false,
    };
    refuse_if(look != numbers.look || kept != numbers.kept || !agrees, 10)
}

fn store_too_short(call: &Call, _: &Table, announced: &Announced) -> Option<Refusal> {
    refuse_if((call.store.len() as i64) < announced.words, 11)
}

/// A row and closing are of the phase reading, a closing turn is of the phase draining.
fn not_of_this_phase(call: &Call, _: &Table, _: &Announced) -> Option<Refusal> {
    let wanted = if call.entry == Entry::Drain { DRAINING } else { READING };
    refuse_if(call.record.phase != wanted, 12)
}

fn row_limit_reached(call: &Call, _: &Table, _: &Announced) -> Option<Refusal> {
    refuse_if(call.record.rows == MOST_ROWS, 13)
}

fn not_a_row(call: &Call, table: &Table, _: &Announced) -> Option<Refusal> {
    refuse_if(call.row.len() != table.inputs, 14)
}

/// "input flag word above 1", at the "lowest such stream".
fn not_a_flag(call: &Call, table: &Table, _: &Announced) -> Option<Refusal> {
    let mut inputs = table.types.iter().zip(&call.row);
    let place = inputs.position(|(own, word)| *own == Type::Flag && *word > 1)?;
    Some(Refusal { number: 15, place })
}

fn output_too_short(call: &Call, _: &Table, announced: &Announced) -> Option<Refusal> {
    refuse_if(call.output.len() < announced.room, 16)
}

fn accepted(call: &Call, table: &Table, announced: &Announced) -> Outcome {
    let mut outcome = as_lent(call);
    match call.entry {
        Entry::Check => outcome.numbers = call.table.numbers(),
        Entry::Open => open(call, &mut outcome),
        Entry::Row => {
            // "A row call is turn j, for the j-th accepted row, counted from 0."
            outcome.record.rows += 1;
            let turn = call.record.rows as i64;
            take_turn(call, (table, announced), turn, None, &mut outcome);
        }
        Entry::Close => outcome.record.phase = phase_after_closing(&call.record, announced),
        Entry::Drain => {
            outcome.record.done += 1;
            if outcome.record.done as i64 == announced.closing {
                outcome.record.phase = OVER;
            }
            let rows = call.record.rows as i64;
            let turn = rows + call.record.done as i64;
            take_turn(call, (table, announced), turn, Some(rows), &mut outcome);
        }
    }
    outcome
}

/// "Opening puts 0 into exactly the announced store words."
fn open(call: &Call, outcome: &mut Outcome) {
    outcome.record = call.table.opened();
    outcome.store[..call.table.numbers().words].fill(0);
}

/// "with N = 0 or no closing turns the run is over, else draining calls are turns N, N+1 and so
/// on."
fn phase_after_closing(record: &Record, announced: &Announced) -> u8 {
    if record.rows == 0 || announced.closing == 0 {
        OVER
    } else {
        DRAINING
    }
}

/// "The bytes written are the result's count; the rest of the output stays as it was."
fn take_turn(
    call: &Call,
    (table, announced): (&Table, &Announced),
    turn: i64,
    end: Option<i64>,
    outcome: &mut Outcome,
) {
    let (row, store) = (&call.row, &mut outcome.store);
    let given = Turn { table, announced, turn, end, row, store }.given();
    outcome.count = given.len();
    outcome.output[..given.len()].copy_from_slice(&given);
}

//! What is printed where a call does something else than document 01 says.

use crate::call::{Call, Outcome};
use std::fmt::Debug;

/// The first thing in which two outcomes differ, or nothing.
pub fn difference(expected: &Outcome, got: &Outcome) -> Option<String> {
    one("number", &expected.number, &got.number)
        .or_else(|| one("place", &expected.place, &got.place))
        .or_else(|| one("count", &expected.count, &got.count))
        .or_else(|| one("announced", &expected.numbers, &got.numbers))
        .or_else(|| one("record", &expected.record, &got.record))
        .or_else(|| each("store word", &expected.store, &got.store))
        .or_else(|| each("output byte", &expected.output, &got.output))
}

fn one<T: PartialEq + Debug>(what: &str, expected: &T, got: &T) -> Option<String> {
    (expected != got).then(|| format!("{what}\nexpected {expected:x?}\ngot      {got:x?}"))
}

fn each<T: PartialEq + Debug>(what: &str, expected: &[T], got: &[T]) -> Option<String> {
    assert_eq!(expected.len(), got.len());
    let place = expected.iter().zip(got).position(|(wanted, found)| wanted != found)?;
    one(&format!("{what} {place}"), &expected[place], &got[place])
}

/// The call with everything that is needed to make it again.
pub fn shown(call: &Call) -> String {
    let table: String = call.table.bytes.iter().map(|byte| format!("{byte:02x}")).collect();
    format!(
        "entry {:?}\ntable of {} bytes: {table}\n{:x?}\nstore of {} words: {:x?}\nrow {:x?}\n\
         output of {} bytes",
        call.entry,
        call.table.bytes.len(),
        call.record,
        call.store.len(),
        call.store,
        call.row,
        call.output.len()
    )
}

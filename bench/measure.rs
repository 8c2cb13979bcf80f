//! The calls that are timed and counted.

use crate::boundary::{self, Library};
use crate::clock::processor_time;
use baseline::anew::Anew;
use baseline::check::{check, Checked};
use baseline::once::Once;
use baseline::rows::rows;
use baseline::run::Run;
use baseline::tables::Named;
use baseline::Calls;
use std::hint::black_box;

/// The rows that a run takes, over and over: few enough to stay in the cache.
const ROWS: usize = 1000;

#[derive(Clone, Copy)]
pub enum Side {
    Library,
    Anew,
    Once,
}

#[derive(Clone, Copy)]
pub enum Call {
    Row,
    Check,
}

impl Call {
    /// Who is compared. A check has no tree to keep, so both baselines have the same.
    pub fn sides(self) -> &'static [Side] {
        match self {
            Call::Row => &[Side::Library, Side::Anew, Side::Once],
            Call::Check => &[Side::Library, Side::Anew],
        }
    }
}

/// Nanoseconds that so many calls take together; a run's opening is left out.
pub fn time(side: Side, call: Call, table: &Named, count: usize) -> f64 {
    match (call, side) {
        (Call::Row, Side::Library) => row_calls::<Library>(table, count),
        (Call::Row, Side::Anew) => row_calls::<Anew>(table, count),
        (Call::Row, Side::Once) => row_calls::<Once>(table, count),
        (Call::Check, Side::Library) => check_calls(count, || {
            black_box(boundary::check(black_box(&table.bytes)));
        }),
        (Call::Check, _) => check_calls(count, || {
            let mut checked = Checked::default();
            check(black_box(&table.bytes), &mut checked).expect("the table is accepted");
            black_box(&checked);
        }),
    }
}

fn row_calls<C: Calls>(table: &Named, count: usize) -> f64 {
    let words = rows(&table.inputs, ROWS);
    let mut run = Run::<C>::open(&table.bytes).expect("the table is accepted");
    let start = processor_time();
    for row in words.chunks_exact(table.inputs.len()).cycle().take(count) {
        black_box(run.row(row).expect("the row is accepted"));
        black_box(&run.out);
    }
    processor_time() - start
}

fn check_calls(count: usize, check: impl Fn()) -> f64 {
    let start = processor_time();
    for _ in 0..count {
        check();
    }
    processor_time() - start
}

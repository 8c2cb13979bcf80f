//! What is measured, and how often. The sides of a line follow each other, so that what else the
//! machine does hits them alike.

use crate::count::instructions;
use crate::measure::{time, Call, Side};
use baseline::tables::Named;
use std::time::{Duration, Instant};

/// A line is measured again within a round until so much time is over.
const PATIENCE: Duration = Duration::from_millis(500);

/// So many calls on one table, and the best nanoseconds a call of each side.
pub struct Line<'a> {
    pub table: &'a Named,
    pub call: Call,
    pub count: usize,
    best: [f64; 3],
}

impl Line<'_> {
    pub fn new(table: &Named, call: Call, count: usize) -> Line<'_> {
        Line { table, call, count, best: [f64::INFINITY; 3] }
    }

    /// A million rows of a long table take most of a minute: one round is enough.
    pub fn long(&self) -> bool {
        self.count * self.table.bytes.len() > 1_000_000_000
    }

    /// One round.
    pub fn measure(&mut self) {
        let start = Instant::now();
        loop {
            for &side in self.call.sides() {
                let each = time(side, self.call, self.table, self.count) / self.count as f64;
                let best = &mut self.best[side as usize];
                *best = best.min(each);
            }
            if start.elapsed() > PATIENCE {
                return;
            }
        }
    }

    pub fn nanoseconds(&self, side: Side) -> f64 {
        self.best[side as usize]
    }

    /// Short tables take more calls, so that valgrind takes about as long for each table.
    pub fn instructions(&self, side: Side) -> Option<f64> {
        instructions(side, self.call, self.table, 200 + 100_000 / self.table.bytes.len())
    }
}

//! One seed: a table, and calls in random order on runs of it. Every call is made twice, by the
//! library and by the reading, and everything that can be seen afterwards is compared.

use crate::call::{Call, Entry, Outcome, Record, DRAINING, ENTRIES, OVER, READING};
use crate::classes::{CHANGED_TABLE, IN_MODEL, UNDISTURBED};
use crate::counts::Counts;
use crate::known::KnownTable;
use crate::random::Random;
use crate::report::{difference, shown};
use crate::trace::Trace;
use crate::{drawn, library, reading, right, wrong};
use std::rc::Rc;

pub struct Session<'a> {
    random: Random,
    others: &'a [Rc<KnownTable>],
    counts: &'a mut Counts,
    table: Rc<KnownTable>,
    record: Record,
    /// The announced words; what is lent beyond them is noise each time.
    store: Vec<u32>,
    /// Nothing once a disturbed call was taken over.
    trace: Option<Trace>,
    /// How many more rows this run is to take before it is closed.
    rows_left: usize,
    /// Once in so many calls any entry is called, else the one that brings the run forward.
    any_entry: usize,
}

/// Runs this seed's session. `others` are tables that may come in place of its own.
pub fn run(seed: u64, others: &[Rc<KnownTable>], counts: &mut Counts) -> Result<(), String> {
    let table = drawn::table(seed);
    let mut random = Random::new(!seed);
    // Long sessions are calm ones, so that their runs go round every part of the store.
    let (calls, any_entry) = match table.accepted() {
        None => (20, 1),
        Some(_) => random.pick(&[(40, 2), (100, 2), (120, 3), (160, 3), (200, 8), (600, 20)]),
    };
    let mut session = Session {
        random,
        others,
        counts,
        record: Record::default(),
        store: vec![0; table.numbers().words],
        table,
        trace: None,
        rows_left: 0,
        any_entry,
    };
    for number in 0..calls {
        session.step().map_err(|why| format!("seed {seed}, call {number}: {why}"))?;
    }
    session.compare_trace().map_err(|why| format!("seed {seed}, after all calls: {why}"))
}

impl Session<'_> {
    fn step(&mut self) -> Result<(), String> {
        let forward = !self.random.once_in(self.any_entry);
        let entry = if forward { self.next_entry() } else { self.random.pick(&ENTRIES) };
        let store = self.store.clone();
        let mut call = right::call(&mut self.random, entry, &self.table, self.record, store);
        if self.random.once_in(if forward { 8 } else { 2 }) {
            wrong::change(&mut self.random, &mut call, self.others);
        }
        let expected = reading::outcome(&call);
        let got = library::outcome(&call).map_err(|why| format!("{why}\n{}", shown(&call)))?;
        if let Some(what) = difference(&expected, &got) {
            return Err(format!("{what}\n{}", shown(&call)));
        }
        self.counts.count(&call, &got);
        self.take_over(call, got, forward)
    }

    /// The entry that brings the run forward. With no run, or one that is over, it is opening.
    fn next_entry(&self) -> Entry {
        let open = self.record.kept[0] > 0;
        let more_rows = self.rows_left > 0 && self.record.rows < u32::MAX;
        match self.record.phase {
            READING if open && more_rows => Entry::Row,
            READING if open => Entry::Close,
            DRAINING => Entry::Drain,
            _ => Entry::Open,
        }
    }

    /// The session goes on from an accepted call of its own run, and sometimes from another one:
    /// then nothing is known of the rows before it.
    fn take_over(&mut self, call: Call, outcome: Outcome, forward: bool) -> Result<(), String> {
        let own_words = call.store.starts_with(&self.store) && call.record == self.record;
        let own_table = Rc::ptr_eq(&call.table, &self.table);
        let changed = outcome.count > 0 && own_words && !own_table;
        self.counts.add(CHANGED_TABLE, changed as u64);
        match call.entry {
            _ if outcome.number != 0 => return Ok(()),
            Entry::Check => return Ok(()),
            Entry::Open if forward || self.random.once_in(10) => self.new_trace()?,
            Entry::Open => return Ok(()),
            _ if own_words && own_table => self.longer_trace(&call, &outcome),
            _ if self.random.once_in(6) => self.compare_trace()?,
            _ => return Ok(()),
        }
        self.table = call.table;
        self.record = outcome.record;
        self.store = outcome.store;
        // A closing isn't lent the store, so that it may have been too short.
        self.store.resize(self.table.numbers().words, 0);
        Ok(())
    }

    /// An opening ends the run before it.
    fn new_trace(&mut self) -> Result<(), String> {
        self.compare_trace()?;
        self.trace = Some(Trace::default());
        let closing = self.table.numbers().closing as i64;
        self.rows_left = match self.random.below(5) {
            0 => self.random.below(4),
            1 => self.random.between((closing - 1).max(0), closing + 1) as usize,
            2 => self.random.below(400),
            _ => self.random.below(30),
        };
        Ok(())
    }

    fn longer_trace(&mut self, call: &Call, outcome: &Outcome) {
        self.rows_left = self.rows_left.saturating_sub((call.entry == Entry::Row) as usize);
        if let Some(trace) = &mut self.trace {
            trace.take(call, outcome);
        }
    }

    /// Ends the undisturbed part of a run: what it gave is held against the model.
    fn compare_trace(&mut self) -> Result<(), String> {
        if let Some(trace) = self.trace.take() {
            let over = self.record.phase == OVER;
            let values = trace.compare(&self.table, over)?;
            self.counts.add(UNDISTURBED, (over && values > 0) as u64);
            self.counts.add(IN_MODEL, values as u64);
        }
        Ok(())
    }
}

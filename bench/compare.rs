//! Whether the library and the baselines give the same: answers, record, store and output after
//! every call of a run with refused rows in it, and the check of every beginning of a table.

use crate::boundary::{self, Library};
use baseline::anew::Anew;
use baseline::check::{check, Checked};
use baseline::once::Once;
use baseline::rows::rows;
use baseline::run::Run;
use baseline::tables::Named;
use baseline::{Calls, Record, Told, DRAINING};

const ROWS: usize = 2000;

enum Step<'a> {
    Row(&'a [u32]),
    /// With too little output lent.
    NarrowRow(&'a [u32]),
    Close,
    Drain,
}

/// What a call answers and leaves behind.
#[derive(PartialEq)]
struct Left {
    told: Told,
    record: Record,
    store: Vec<u32>,
    out: Vec<u8>,
}

fn take<C: Calls>(run: &mut Run<C>, step: &Step) -> Left {
    // No record has this byte throughout, so one that is written too many shows.
    run.out.fill(0xAA);
    let told = match step {
        Step::Row(row) => run.row(row),
        Step::NarrowRow(row) => run.narrow_row(row),
        Step::Close => run.close(),
        Step::Drain => run.drain(),
    };
    Left { told, record: run.record.clone(), store: run.store.clone(), out: run.out.to_vec() }
}

/// The three runs of one table.
struct Three {
    library: Run<Library>,
    anew: Run<Anew>,
    once: Run<Once>,
    calls: usize,
}

impl Three {
    /// Whether one call is the same for all.
    fn same(&mut self, step: Step) -> bool {
        self.calls += 1;
        let left = take(&mut self.library, &step);
        left == take(&mut self.anew, &step) && left == take(&mut self.once, &step)
    }
}

/// The number of calls compared, or the call that differs.
pub fn compare(table: &Named) -> Result<usize, String> {
    let bytes = &table.bytes;
    let opened = "the table is accepted";
    let mut three = Three {
        library: Run::open(bytes).expect(opened),
        anew: Run::open(bytes).expect(opened),
        once: Run::open(bytes).expect(opened),
        calls: 0,
    };
    let inputs = table.inputs.len();
    let words = rows(&table.inputs, ROWS);
    // A row of twos is refused where an input is a flag, one of another length everywhere.
    let (twos, longer) = (vec![2; inputs], vec![0; inputs + 1]);
    let mut same = true;
    for (i, row) in words.chunks_exact(inputs).enumerate() {
        same &= three.same(Step::Row(row));
        if i % 100 == 0 {
            same &= three.same(Step::Row(&twos)) && three.same(Step::Row(&longer));
            same &= three.same(Step::NarrowRow(row)) && three.same(Step::Drain);
        }
    }
    same &= three.same(Step::Close) && three.same(Step::Close) && three.same(Step::Row(&twos));
    while same && three.library.record.phase == DRAINING {
        same = three.same(Step::Drain);
    }
    same &= three.same(Step::Drain);
    if !same {
        return Err(format!("a call of the run of table {} differs", table.name));
    }
    for length in 0..=bytes.len() {
        if !same_check(&bytes[..length]) {
            return Err(format!("the check of {length} bytes of table {} differs", table.name));
        }
    }
    Ok(three.calls + bytes.len() + 1)
}

fn same_check(bytes: &[u8]) -> bool {
    let library = boundary::check(bytes);
    let mut checked = Checked::default();
    match check(bytes, &mut checked) {
        Err(refusal) => {
            let place = refusal.place as usize;
            (library.number, library.place) == (refusal.number, place)
        }
        Ok(()) => {
            (library.number, library.place) == (0, 0)
                && (library.look, library.kept) == (checked.look, checked.kept)
                && (library.words, library.room) == (checked.words, checked.room)
                && library.closing == checked.closing
        }
    }
}

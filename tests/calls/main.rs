//! Calls of the library in random order, with right and wrong arguments, of fixed seeds. Whatever
//! can be seen after a call is compared with document 01. See tests/README.md.

mod call;
mod classes;
mod counts;
mod drawn;
mod expression;
mod hand;
// The comparison of the program draws whole inputs; here their tables are taken.
#[allow(dead_code)]
#[path = "../compare/inputs.rs"]
mod inputs;
mod known;
mod library;
#[path = "../compare/random.rs"]
mod random;
mod reading;
mod report;
mod right;
mod session;
#[path = "../compare/tables.rs"]
mod tables;
mod trace;
mod turn;
mod wrong;

use counts::Counts;
use known::KnownTable;
use std::process::ExitCode;
use std::rc::Rc;

/// Seeds 0 to SEEDS - 1 have a session each.
const SEEDS: u64 = 3500;
/// The tables of the seeds after them may come in place of a session's own.
const OTHERS: u64 = 350;

const USAGE: &str = "usage: calls         all calls
       calls SEED    one seed's calls only";

fn main() -> ExitCode {
    let arguments: Vec<String> = std::env::args().skip(1).collect();
    let outcome = match &arguments[..] {
        [] => all(),
        [seed] => seed.parse().map_err(|_| USAGE.to_string()).and_then(one),
        _ => Err(USAGE.to_string()),
    };
    match outcome {
        Ok(text) => {
            println!("{text}");
            ExitCode::SUCCESS
        }
        Err(report) => {
            println!("{report}");
            ExitCode::FAILURE
        }
    }
}

fn others() -> Vec<Rc<KnownTable>> {
    (SEEDS..SEEDS + OTHERS).map(drawn::table).collect()
}

fn one(seed: u64) -> Result<String, String> {
    let mut counts = Counts::default();
    session::run(seed, &others(), &mut counts)?;
    Ok(format!("{}calls: seed {seed}, {} calls", counts.lines(), counts.calls()))
}

fn all() -> Result<String, String> {
    hand::check()?;
    let others = others();
    let mut counts = Counts::default();
    for seed in 0..SEEDS {
        session::run(seed, &others, &mut counts)?;
    }
    print!("{}", counts.lines());
    match &counts.too_few()[..] {
        [] => Ok(format!("calls: {} calls, all as document 01 says", counts.calls())),
        few => Err(format!("calls: too seldom to be tested: {}", few.join(", "))),
    }
}

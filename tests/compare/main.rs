//! Compares the program under test with the reference, byte by byte, on hand-made, cut, random and
//! live inputs of fixed seeds. See tests/README.md.

mod counts;
mod given;
mod hand;
mod inputs;
mod lengths;
mod live;
mod random;
mod report;
mod runner;
mod tables;

use counts::Counts;
use random::Random;
use std::io::Write;
use std::path::{Path, PathBuf};
use std::process::ExitCode;
use std::sync::atomic::{AtomicU64, Ordering};
use std::thread::{available_parallelism, scope};

/// Seeds 0 to SEEDS - 1 are run.
const SEEDS: u64 = 4096;

const USAGE: &str = "usage: compare PROGRAM         all tests
       compare PROGRAM SEED    one seed only
       compare --input SEED    writes that seed's input";

fn main() -> ExitCode {
    let arguments: Vec<String> = std::env::args().skip(1).collect();
    let arguments: Vec<&str> = arguments.iter().map(String::as_str).collect();
    let outcome = match arguments[..] {
        ["--input", seed] => number(seed).and_then(write_input),
        [program] => all(&PathBuf::from(program)),
        [program, seed] => number(seed).and_then(|seed| one(&PathBuf::from(program), seed)),
        _ => Err(USAGE.to_string()),
    };
    match outcome {
        Ok(()) => ExitCode::SUCCESS,
        Err(report) => {
            println!("{report}");
            ExitCode::FAILURE
        }
    }
}

fn number(text: &str) -> Result<u64, String> {
    text.parse().map_err(|_| USAGE.to_string())
}

fn write_input(seed: u64) -> Result<(), String> {
    let input = inputs::input(seed);
    std::io::stdout().write_all(&input.bytes).map_err(|error| error.to_string())
}

/// One seed only: its counts, or the difference.
fn one(program: &Path, seed: u64) -> Result<(), String> {
    let mut counts = Counts::default();
    compare_seed(program, seed, &mut counts)?;
    println!("same: {}", counts.line());
    Ok(())
}

fn all(program: &Path) -> Result<(), String> {
    let mut counts = Counts::default();
    hand::check(program, &mut counts)?;
    given::check(program, &mut counts)?;
    lengths::check(program, &mut counts)?;
    compare_seeds(program, &mut counts)?;
    live::check(program, &mut counts)?;
    println!("same: {}", counts.line());
    match counts.missing()[..] {
        [] => Ok(()),
        ref missing => Err(format!("never occurred, so never tested: {}", missing.join(", "))),
    }
}

/// All seeds, as many at once as there are processors. The first difference stops them.
fn compare_seeds(program: &Path, counts: &mut Counts) -> Result<(), String> {
    let next = AtomicU64::new(0);
    let workers = available_parallelism().map_or(2, |number| number.get());
    let outcomes: Vec<Result<Counts, String>> = scope(|scope| {
        let handles: Vec<_> =
            (0..workers).map(|_| scope.spawn(|| compare_some(program, &next))).collect();
        handles.into_iter().map(|handle| handle.join().expect("a worker ends")).collect()
    });
    for outcome in outcomes {
        counts.merge(outcome?);
    }
    Ok(())
}

/// A worker: seed after seed, until none is left.
fn compare_some(program: &Path, next: &AtomicU64) -> Result<Counts, String> {
    let mut counts = Counts::default();
    loop {
        let seed = next.fetch_add(1, Ordering::Relaxed);
        if seed >= SEEDS {
            return Ok(counts);
        }
        if let Err(report) = compare_seed(program, seed, &mut counts) {
            next.store(SEEDS, Ordering::Relaxed);
            return Err(report);
        }
    }
}

fn compare_seed(program: &Path, seed: u64, counts: &mut Counts) -> Result<(), String> {
    let input = inputs::input(seed);
    let pieces = input.in_pieces.then(|| Random::new(seed));
    counts.add("in pieces", input.in_pieces as u64);
    let name = format!("seed {seed}, class {}", input.class);
    report::compare(program, &name, &input.bytes, pieces, counts)
}

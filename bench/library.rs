//! The benchmark of the library through its C boundary, beside the two baselines: see
//! docs/BENCHMARKS.md. It prints tables in Markdown, and ends with 1 if what the three give
//! differs.

mod boundary;
mod clock;
mod compare;
mod count;
mod measure;
mod report;
mod rounds;

use baseline::tables::{growing, three};
use std::process::ExitCode;

fn main() -> ExitCode {
    let arguments: Vec<String> = std::env::args().skip(1).collect();
    let words: Vec<&str> = arguments.iter().map(String::as_str).collect();
    let done = match words[..] {
        [] => benchmark(),
        [call, side, table, count] => {
            count::make(call, side, table, count).ok_or("no such calls".to_string())
        }
        _ => Err("usage: library".to_string()),
    };
    match done {
        Ok(()) => ExitCode::SUCCESS,
        Err(message) => {
            eprintln!("{message}");
            ExitCode::FAILURE
        }
    }
}

fn benchmark() -> Result<(), String> {
    let (three, growing) = (three(), growing());
    let mut calls = 0;
    for table in three.iter().chain(&growing) {
        calls += compare::compare(table)?;
    }
    println!("All three gave the same in {calls} calls.");
    report::print(&three, &growing);
    Ok(())
}

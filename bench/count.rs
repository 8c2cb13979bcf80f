//! Instructions of a call, by valgrind's callgrind. They repeat, whatever else the machine does.

use crate::measure::{time, Call, Side};
use baseline::tables::{growing, three, Named};
use std::process::Command;

/// The instructions of so many calls less those of none, divided; nothing where valgrind isn't
/// there.
pub fn instructions(side: Side, call: Call, table: &Named, count: usize) -> Option<f64> {
    let all = collected(side, call, table, count)? - collected(side, call, table, 0)?;
    Some(all / count as f64)
}

/// The program runs itself under valgrind, with the four words that `make` takes.
fn collected(side: Side, call: Call, table: &Named, count: usize) -> Option<f64> {
    let words = [(call as usize).to_string(), (side as usize).to_string()];
    let output = Command::new("valgrind")
        .args(["--tool=callgrind", "--callgrind-out-file=/dev/null"])
        .arg(std::env::current_exe().ok()?)
        .args(words)
        .args([&table.name, &count.to_string()])
        .output()
        .ok()?;
    let said = String::from_utf8(output.stderr).ok()?;
    said.split("Collected :").nth(1)?.split_whitespace().next()?.parse().ok()
}

/// Makes the calls that are counted.
pub fn make(call: &str, side: &str, name: &str, count: &str) -> Option<()> {
    let call = *[Call::Row, Call::Check].get(call.parse::<usize>().ok()?)?;
    let side = *call.sides().get(side.parse::<usize>().ok()?)?;
    let table = three().into_iter().chain(growing()).find(|table| table.name == name)?;
    time(side, call, &table, count.parse().ok()?);
    Some(())
}

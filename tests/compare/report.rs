//! One comparison, and what is printed where it finds a difference.

use crate::counts::Counts;
use crate::random::Random;
use crate::runner::run;
use reference::program::answer;
use std::path::Path;

/// Runs both on this input and counts it. `name` says which input it is, by its seed if it has one.
/// The error is a report of the first difference.
pub fn compare(
    program: &Path,
    name: &str,
    input: &[u8],
    pieces: Option<Random>,
    counts: &mut Counts,
) -> Result<(), String> {
    let expected = answer(input);
    counts.count(input, &expected);
    let found = run(program, input, pieces).map_err(|why| difference(name, input, &why))?;
    same(name, input, expected.text.as_bytes(), &found)
}

/// That two outputs are the same bytes; the error is a report.
pub fn same(name: &str, input: &[u8], expected: &[u8], found: &[u8]) -> Result<(), String> {
    if expected == found {
        return Ok(());
    }
    let mut expected_lines = expected.split_inclusive(|&byte| byte == b'\n');
    let mut found_lines = found.split_inclusive(|&byte| byte == b'\n');
    let mut number = 1;
    loop {
        let (wanted, got) = (expected_lines.next(), found_lines.next());
        if wanted != got {
            let why = format!("line {number}\nexpected {}\nfound    {}", shown(wanted), shown(got));
            return Err(difference(name, input, &why));
        }
        number += 1;
    }
}

fn difference(name: &str, input: &[u8], why: &str) -> String {
    format!("difference: {name}\ntable {}\ninput of {} bytes\n{why}", table_hex(input), input.len())
}

fn shown(line: Option<&[u8]>) -> String {
    match line {
        None => "no line".to_string(),
        Some(bytes) => format!("{:?}", String::from_utf8_lossy(bytes)),
    }
}

/// The table's bytes as far as the input has them, by the length in the head.
fn table_hex(input: &[u8]) -> String {
    if input.len() < 3 {
        return "none".to_string();
    }
    let length = u16::from_le_bytes([input[1], input[2]]) as usize;
    let end = input.len().min(3 + length);
    input[3..end].iter().map(|byte| format!("{byte:02x}")).collect()
}

//! The tables of crates/test_tables/stdin through both programs, with no rows: the answers reasoned by hand
//! in crates/test_tables/stdout say what is printed.

use crate::counts::Counts;
use crate::report::{compare, same};
use reference::program::answer;
use std::path::Path;

const TABLES: &str = include_str!("../../crates/test_tables/stdin");
const ANSWERS: &str = include_str!("../../crates/test_tables/stdout");

pub fn check(program: &Path, counts: &mut Counts) -> Result<(), String> {
    let tables = TABLES.lines().filter(|line| !line.starts_with('#'));
    for (number, (hex, expected)) in tables.zip(ANSWERS.lines()).enumerate() {
        let input = input(hex);
        let name = format!("table {} of crates/test_tables/stdin", number + 1);
        let printed = match expected.starts_with("0 0 ") {
            true => "end 0\n".to_string(),
            false => format!("r {expected}\n"),
        };
        let text = answer(&input).text;
        same(
            &format!("the reference itself, {name}"),
            &input,
            printed.as_bytes(),
            text.as_bytes(),
        )?;
        compare(program, &name, &input, None, counts)?;
    }
    Ok(())
}

/// Head and table; `-` is the empty table.
fn input(hex: &str) -> Vec<u8> {
    let digits = hex.trim_matches('-');
    let byte = |place| u8::from_str_radix(&digits[place..place + 2], 16).expect("two hex digits");
    let table: Vec<u8> = (0..digits.len()).step_by(2).map(byte).collect();
    crate::hand::input(&table, &[])
}

//! The reference as a program. Without arguments it behaves as document 01's program does; with
//! the argument `tables` it reads tables as lines of hex and prints the check's answer for each.

use reference::announce::answer_line;
use reference::program::answer;
use std::io::{stdin, stdout, BufRead, Read, Result, Write};

fn main() -> Result<()> {
    match std::env::args().nth(1).as_deref() {
        None => monitor(),
        Some("tables") => tables(),
        Some(_) => {
            eprintln!("usage: reference [tables]");
            std::process::exit(2)
        }
    }
}

/// Answers all bytes read so far, again after each piece that arrives, and prints what is new.
fn monitor() -> Result<()> {
    let mut input = Vec::new();
    let mut piece = vec![0; 1 << 16];
    let mut printed = 0;
    loop {
        let count = stdin().read(&mut piece)?;
        input.extend_from_slice(&piece[..count]);
        let answer = answer(&input);
        let over = count == 0 || answer.stopped;
        let owed = if over { answer.text.len() } else { answer.early };
        stdout().write_all(answer.text[printed..owed].as_bytes())?;
        stdout().flush()?;
        printed = owed;
        if over {
            return Ok(());
        }
    }
}

/// Lines that start with # are comments; `-` is the empty table.
fn tables() -> Result<()> {
    for line in stdin().lock().lines() {
        let line = line?;
        let line = line.trim();
        if line.starts_with('#') || line.is_empty() {
            continue;
        }
        println!("{}", answer_line(&bytes_of_hex(line)));
    }
    Ok(())
}

fn bytes_of_hex(line: &str) -> Vec<u8> {
    if line == "-" {
        return Vec::new();
    }
    let digits: Vec<u32> =
        line.chars().map(|c| c.to_digit(16).expect("a line has hex digits only")).collect();
    assert!(digits.len() % 2 == 0, "a line has an even number of digits");
    digits.chunks_exact(2).map(|pair| (pair[0] * 16 + pair[1]) as u8).collect()
}

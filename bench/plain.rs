//! The plain Rust program that the benchmark compares with: document 01's program with std only
//! and no proofs. `plain once` tests the table once, `plain anew` at each row as document 01's
//! calls must; both read standard input and print the lines. `plain input N` prints the
//! benchmark's input: table A and N rows.

use baseline::anew::Anew;
use baseline::check::word_at;
use baseline::lines::{put_end, put_records, put_refusal, put_stop};
use baseline::once::Once;
use baseline::rows::rows;
use baseline::run::Run;
use baseline::tables::table_a;
use baseline::{Calls, Refusal, DRAINING, MOST_STREAMS};
use std::fs::File;
use std::io::{stdin, stdout, Read, Result, Write};
use std::os::fd::AsFd;

const PIECE: usize = 1 << 16;

fn main() -> Result<()> {
    let arguments: Vec<String> = std::env::args().skip(1).collect();
    let words: Vec<&str> = arguments.iter().map(String::as_str).collect();
    match words[..] {
        ["once"] => monitor::<Once>(),
        ["anew"] => monitor::<Anew>(),
        ["input", rows] => print_input(rows.parse().expect("N is a number")),
        _ => {
            eprintln!("usage: plain once | plain anew | plain input N");
            std::process::exit(2)
        }
    }
}

/// Standard output as a file: `stdout()` itself would look for line ends in each piece.
fn output() -> Result<File> {
    Ok(File::from(stdout().as_fd().try_clone_to_owned()?))
}

/// Writes the text and empties it.
fn say(out: &mut File, text: &mut Vec<u8>) -> Result<()> {
    out.write_all(text)?;
    text.clear();
    Ok(())
}

/// Reads until the buffer is full or the input ends; how many bytes there were.
fn read_full(buffer: &mut [u8]) -> Result<usize> {
    let mut got = 0;
    while got < buffer.len() {
        match stdin().read(&mut buffer[got..])? {
            0 => break,
            more => got += more,
        }
    }
    Ok(got)
}

/// The whole program: head, table, rows, closing.
fn monitor<C: Calls>() -> Result<()> {
    let mut text = Vec::with_capacity(2 * PIECE);
    let mut out = output()?;
    match open_run::<C>()? {
        Opened::Stopped(read) => put_stop(&mut text, read),
        Opened::Refused(refusal) => put_refusal(&mut text, refusal),
        Opened::Run(mut run, inputs, read) => {
            take_rows(&mut run, inputs, read, &mut out, &mut text)?;
            close_run(&mut run, &mut text);
        }
    }
    say(&mut out, &mut text)
}

enum Opened<C: Calls> {
    Stopped(u64),
    Refused(Refusal),
    /// The run, its number of inputs, and the bytes read so far.
    Run(Run<C>, usize, u64),
}

fn open_run<C: Calls>() -> Result<Opened<C>> {
    let mut head = [0; 3];
    if read_full(&mut head[..1])? == 0 {
        return Ok(Opened::Stopped(0));
    }
    if head[0] != 0x60 {
        return Ok(Opened::Refused(Refusal { number: 3, place: 0 }));
    }
    let got = 1 + read_full(&mut head[1..])?;
    if got < 3 {
        return Ok(Opened::Stopped(got as u64));
    }
    let mut table = vec![0; u16::from_le_bytes([head[1], head[2]]) as usize];
    // "A length that refusal 1 covers isn't read further": the check refuses it by its length
    // alone.
    let covered = table.is_empty() || table.len() > 4096;
    let got = if covered { table.len() } else { read_full(&mut table)? };
    let read = (head.len() + got) as u64;
    if got < table.len() {
        return Ok(Opened::Stopped(read));
    }
    Ok(match Run::open(&table) {
        Err(refusal) => Opened::Refused(refusal),
        // I stands in the table's first record.
        Ok(run) => Opened::Run(run, table[2] as usize, read),
    })
}

/// Rows until the input ends, answered after each read.
fn take_rows<C: Calls>(
    run: &mut Run<C>,
    inputs: usize,
    mut read: u64,
    out: &mut File,
    text: &mut Vec<u8>,
) -> Result<()> {
    let mut buffer = vec![0; PIECE];
    let mut words = [0; MOST_STREAMS];
    let mut have = 0;
    loop {
        let got = stdin().read(&mut buffer[have..])?;
        if got == 0 {
            break;
        }
        read += got as u64;
        have += got;
        let mut rows = buffer[..have].chunks_exact(4 * inputs);
        for bytes in &mut rows {
            for (i, word) in words[..inputs].iter_mut().enumerate() {
                *word = word_at(bytes, 4 * i);
            }
            match run.row(&words[..inputs]) {
                Ok(count) => put_records(text, &run.out[..count]),
                Err(refusal) => put_refusal(text, refusal),
            }
            if text.len() >= PIECE {
                say(out, text)?;
            }
        }
        let left = rows.remainder().len();
        buffer.copy_within(have - left..have, 0);
        have = left;
        say(out, text)?;
    }
    if have > 0 {
        put_stop(text, read);
    }
    Ok(())
}

/// The closing turns' lines and the last line. Nothing is refused: each call is of the run's phase.
fn close_run<C: Calls>(run: &mut Run<C>, text: &mut Vec<u8>) {
    run.close().expect("the run is reading");
    while run.record.phase == DRAINING {
        let count = run.drain().expect("the run is draining");
        put_records(text, &run.out[..count]);
    }
    put_end(text, run.record.rows);
}

/// Head, table A and its rows.
fn print_input(count: usize) -> Result<()> {
    let table = table_a();
    let mut bytes = vec![0x60, table.bytes.len() as u8, 0];
    bytes.extend(&table.bytes);
    bytes.extend(rows(&table.inputs, count).iter().flat_map(|word| word.to_le_bytes()));
    stdout().write_all(&bytes)
}

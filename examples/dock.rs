//! The dock of dock.c in Rust, over the safe calls of glasspuddle.rs. It lends exactly what the
//! check announces. Standard output has the program's lines, standard error what is acted on.
//!
//! A broken link must not look like the end of a run. What a signal interrupts is tried again at
//! once, what isn't ready when poll says that it is. Any other failed read or write stops the dock:
//! no further line, no closing, no `end`, a message on standard error.
//!
//! Exit status: 0 the run ended, its last line is `end N`; 1 reading or writing failed; 2 there was
//! no run, since the first byte is wrong, the table is refused or the input stops before the rows:
//! the last line is an `r` or an `s`.

// Before a `fn main()` Rust opens /dev/null in place of a closed descriptor: a closed input would
// be an empty one, and lines for a closed output would be lost.
#![no_main]

use glasspuddle::{Cause, Dock, Output, Outputs, Phase, Refusal};
use glasspuddle::{INPUTS_MOST, ROOM_MOST, STORE_MOST, TABLE_MOST};
use std::ffi::{c_int, c_short, c_ulong};
use std::fs::File;
use std::io::{self, BufReader, ErrorKind, Read, Write};
use std::os::fd::{AsFd, AsRawFd};

const KIND_STREAM: u8 = 0x60;

const ENDED: c_int = 0;
const FAILED: c_int = 1;
const NO_RUN: c_int = 2;

/// Why the dock stops before its run has ended.
enum Stop {
    /// The input stops in the head or the table.
    InHead,
    Refused(Refusal),
    Failed(Failure),
}

/// A failed read or write.
struct Failure {
    what: &'static str,
    error: io::Error,
}

fn reading(error: io::Error) -> Failure {
    Failure { what: "reading", error }
}

fn writing(error: io::Error) -> Failure {
    Failure { what: "writing", error }
}

impl From<Refusal> for Stop {
    fn from(refusal: Refusal) -> Self {
        Stop::Refused(refusal)
    }
}

impl From<Failure> for Stop {
    fn from(failure: Failure) -> Self {
        Stop::Failed(failure)
    }
}

/// Standard input and output. Lines are written before more input is waited for.
struct Link {
    input: BufReader<End>,
    /// Bytes taken from the input in all.
    taken: u64,
    output: End,
    /// Lines that aren't written yet.
    lines: String,
}

impl Link {
    /// From so many bytes on lines are written.
    const LINES_MOST: usize = 4096;

    fn open() -> Result<Self, Failure> {
        let input = BufReader::new(End::of(io::stdin()).map_err(reading)?);
        let output = End::of(io::stdout()).map_err(writing)?;
        Ok(Link { input, taken: 0, output, lines: String::new() })
    }

    /// Waits for all these bytes; fewer come only at the end of the input.
    fn take(&mut self, bytes: &mut [u8]) -> Result<usize, Failure> {
        let mut got = 0;
        while got < bytes.len() {
            if self.input.buffer().is_empty() {
                self.write_lines()?;
            }
            match self.input.read(&mut bytes[got..]).map_err(reading)? {
                0 => break,
                more => got += more,
            }
        }
        self.taken += got as u64;
        Ok(got)
    }

    /// The same, where there is no run with fewer.
    fn take_all(&mut self, bytes: &mut [u8]) -> Result<(), Stop> {
        match self.take(bytes)? {
            got if got < bytes.len() => Err(Stop::InHead),
            _ => Ok(()),
        }
    }

    fn print(&mut self, line: &str) -> Result<(), Failure> {
        self.lines.push_str(line);
        self.lines.push('\n');
        if self.lines.len() < Self::LINES_MOST {
            return Ok(());
        }
        self.write_lines()
    }

    fn write_lines(&mut self) -> Result<(), Failure> {
        self.output.write_all(self.lines.as_bytes()).map_err(writing)?;
        self.lines.clear();
        Ok(())
    }
}

/// Kind byte, length and table. That an empty one is refused is left to the check.
fn take_table<'t>(link: &mut Link, table: &'t mut [u8]) -> Result<&'t [u8], Stop> {
    let mut kind = [0];
    link.take_all(&mut kind)?;
    if kind != [KIND_STREAM] {
        return Err(Stop::Refused(Refusal { cause: Cause::Kind, place: 0 }));
    }
    let mut length = [0; 2];
    link.take_all(&mut length)?;
    let length = usize::from(u16::from_le_bytes(length));
    if table.len() < length {
        return Err(Stop::Refused(Refusal { cause: Cause::TableLength, place: 0 }));
    }
    link.take_all(&mut table[..length])?;
    Ok(&table[..length])
}

/// A trigger is true at this position. Here a dock switches something.
fn act(stream: u8, position: u32) -> Result<(), Failure> {
    tell(&format!("dock: trigger {stream} at position {position}")).map_err(writing)
}

fn tell(line: &str) -> io::Result<()> {
    End::of(io::stderr())?.write_all(format!("{line}\n").as_bytes())
}

/// Prints what a turn gave.
fn give(outputs: Outputs, link: &mut Link) -> Result<(), Failure> {
    for output in outputs {
        match output {
            Output::Value { stream, position, word } => {
                link.print(&format!("v {stream} {position} {word:08x}"))?;
            }
            Output::Trigger { stream, position } => {
                link.print(&format!("t {stream} {position}"))?;
                act(stream, position)?;
            }
        }
    }
    Ok(())
}

fn stopped(link: &mut Link) -> Result<(), Failure> {
    link.print(&format!("s {}", link.taken))
}

fn refused(refusal: Refusal, link: &mut Link) -> Result<(), Failure> {
    link.print(&format!("r {} {}", refusal.number(), refusal.place))
}

/// Rows until the input ends. "A refused row is reported and skipped."
fn take_rows(dock: &mut Dock, out: &mut [u8], link: &mut Link) -> Result<(), Failure> {
    let mut bytes = [0; 4 * INPUTS_MOST];
    let mut row = [0; INPUTS_MOST];
    let bytes = &mut bytes[..4 * dock.inputs()];
    let row = &mut row[..dock.inputs()];
    let mut got = link.take(bytes)?;
    while got == bytes.len() {
        for (word, four) in row.iter_mut().zip(bytes.chunks_exact(4)) {
            *word = u32::from_le_bytes([four[0], four[1], four[2], four[3]]);
        }
        match dock.row(row, out) {
            Ok(outputs) => give(outputs, link)?,
            Err(refusal) => refused(refusal, link)?,
        }
        got = link.take(bytes)?;
    }
    if got > 0 {
        stopped(link)?;
    }
    Ok(())
}

fn run(link: &mut Link) -> Result<(), Stop> {
    let mut table = [0; TABLE_MOST];
    let table = take_table(link, &mut table)?;
    let announced = glasspuddle::check(table)?;
    let mut store = [0; STORE_MOST];
    let mut out = [0; ROOM_MOST];
    let out = &mut out[..announced.room];
    let mut dock = Dock::open(table, &mut store[..announced.words])?;
    take_rows(&mut dock, out, link)?;
    dock.close()?;
    while dock.phase() == Phase::Draining {
        give(dock.drain(out)?, link)?;
    }
    link.print(&format!("end {}", dock.rows()))?;
    Ok(())
}

/// The run, and its last line where there was none. Answers the exit status.
fn run_to_the_end() -> Result<c_int, Failure> {
    let mut link = Link::open()?;
    let status = match run(&mut link) {
        Ok(()) => ENDED,
        Err(Stop::InHead) => stopped(&mut link).map(|()| NO_RUN)?,
        Err(Stop::Refused(refusal)) => refused(refusal, &mut link).map(|()| NO_RUN)?,
        Err(Stop::Failed(failure)) => return Err(failure),
    };
    link.write_lines()?;
    Ok(status)
}

#[no_mangle]
pub extern "C" fn main() -> c_int {
    // A reader that has gone is a failed write like any other, and no signal that ends the dock.
    // SAFETY: no handler is set.
    unsafe { signal(SIGPIPE, SIG_IGN) };
    run_to_the_end().unwrap_or_else(|Failure { what, error }| {
        // Where the message can't be written either, the status still tells.
        let _ = tell(&format!("glasspuddle: {what} failed: {error}"));
        FAILED
    })
}

/// One of the standard descriptors. Rust's own `Stdin` and `Stdout` take one that is open the wrong
/// way round for an empty one.
struct End {
    file: File,
}

impl End {
    fn of(standard: impl AsFd) -> io::Result<Self> {
        let file = File::from(standard.as_fd().try_clone_to_owned()?);
        Ok(End { file })
    }

    /// Tries until the answer is neither that a signal came nor that the descriptor isn't ready. One
    /// that breaks meanwhile is ready too: the next try shows it.
    fn patiently<T>(
        &mut self,
        events: c_short,
        mut attempt: impl FnMut(&mut File) -> io::Result<T>,
    ) -> io::Result<T> {
        loop {
            match attempt(&mut self.file) {
                Err(error) if error.kind() == ErrorKind::Interrupted => {}
                Err(error) if error.kind() == ErrorKind::WouldBlock => {
                    self.found(events, FOREVER)?;
                }
                done => return done,
            }
        }
    }

    /// Waits for one of these events, at most so many milliseconds. Answers what was found.
    fn found(&self, events: c_short, wait: c_int) -> io::Result<c_short> {
        let mut wanted = PollFd { fd: self.file.as_raw_fd(), events, revents: 0 };
        loop {
            // SAFETY: the pointer is to one entry.
            if 0 <= unsafe { poll(&mut wanted, 1, wait) } {
                return Ok(wanted.revents);
            }
            let error = io::Error::last_os_error();
            if error.kind() != ErrorKind::Interrupted {
                return Err(error);
            }
        }
    }
}

impl Read for End {
    fn read(&mut self, bytes: &mut [u8]) -> io::Result<usize> {
        let got = self.patiently(POLLIN, |file| file.read(bytes))?;
        // A terminal that has hung up is read as one that has ended. Only poll tells them apart.
        if got == 0 && self.found(POLLIN, AT_ONCE)? & POLLERR != 0 {
            return Err(io::Error::from_raw_os_error(EIO));
        }
        Ok(got)
    }
}

impl Write for End {
    fn write(&mut self, bytes: &[u8]) -> io::Result<usize> {
        self.patiently(POLLOUT, |file| file.write(bytes))
    }

    fn flush(&mut self) -> io::Result<()> {
        Ok(())
    }
}

// Of the C library on Linux, what Rust's own has not.

const EIO: c_int = 5;
const SIGPIPE: c_int = 13;
const SIG_IGN: usize = 1;
const POLLIN: c_short = 1;
const POLLOUT: c_short = 4;
const POLLERR: c_short = 8;
const AT_ONCE: c_int = 0;
const FOREVER: c_int = -1;

#[repr(C)]
struct PollFd {
    fd: c_int,
    events: c_short,
    revents: c_short,
}

extern "C" {
    fn poll(entries: *mut PollFd, count: c_ulong, wait: c_int) -> c_int;
    fn signal(number: c_int, handler: usize) -> usize;
}

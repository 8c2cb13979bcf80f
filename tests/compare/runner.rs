//! Runs the program under test on one input. A program that doesn't end is stopped and reported.

use crate::random::Random;
use std::io::{Read, Write};
use std::path::Path;
use std::process::{Child, ChildStdin, Command, Stdio};
use std::sync::mpsc::channel;
use std::thread::{sleep, spawn};
use std::time::Duration;

const LONGEST_RUN: Duration = Duration::from_secs(60);

pub fn start(program: &Path) -> Result<Child, String> {
    let mut command = Command::new(program);
    command.stdin(Stdio::piped()).stdout(Stdio::piped());
    command.spawn().map_err(|error| format!("{} doesn't start: {error}", program.display()))
}

/// The program's whole output, or why there is none. Exit codes aren't compared, since document 01
/// names none, but a program that a signal ended is reported.
pub fn run(program: &Path, input: &[u8], pieces: Option<Random>) -> Result<Vec<u8>, String> {
    let mut child = start(program)?;
    let stdin = child.stdin.take().expect("a piped input");
    let mut stdout = child.stdout.take().expect("a piped output");
    let input = input.to_vec();
    let writer = spawn(move || hand_over(stdin, &input, pieces));
    let (sender, receiver) = channel();
    let reader = spawn(move || {
        let mut output = Vec::new();
        let outcome = stdout.read_to_end(&mut output).map(|_| output);
        // Nobody listens any more if the run was too long.
        let _ = sender.send(outcome);
    });
    let outcome = receiver.recv_timeout(LONGEST_RUN);
    if outcome.is_err() {
        child.kill().map_err(|error| error.to_string())?;
    }
    let status = child.wait().map_err(|error| error.to_string())?;
    writer.join().expect("the writer ends");
    reader.join().expect("the reader ends");
    match outcome {
        Err(_) => Err(format!("no end of output within {} s", LONGEST_RUN.as_secs())),
        Ok(Err(error)) => Err(error.to_string()),
        Ok(Ok(_)) if status.code().is_none() => Err(format!("ended by a signal: {status}")),
        Ok(Ok(output)) => Ok(output),
    }
}

/// Writes the input, at once or in pieces of random sizes with short pauses, and closes it. A
/// program may end before it has read all of it, so a failing write is no fault.
fn hand_over(mut stdin: ChildStdin, input: &[u8], pieces: Option<Random>) {
    let Some(mut random) = pieces else {
        let _ = stdin.write_all(input);
        return;
    };
    let largest = random.pick(&[1, 3, 9, 60]).max(input.len() / 20);
    let mut rest = input;
    while !rest.is_empty() {
        let size = (1 + random.below(largest)).min(rest.len());
        if stdin.write_all(&rest[..size]).and_then(|()| stdin.flush()).is_err() {
            return;
        }
        rest = &rest[size..];
        sleep(Duration::from_micros(random.below(1500) as u64));
    }
}

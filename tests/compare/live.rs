//! Tests with the input left open: the program must answer every complete row before it waits for
//! more, and must end by itself after a refusal that ends it.

use crate::counts::Counts;
use crate::hand::{bytes, input_a, TABLE_A};
use crate::inputs;
use crate::report::same;
use crate::runner::start;
use reference::program::answer;
use std::io::{Read, Write};
use std::path::Path;
use std::process::{Child, ChildStdin};
use std::sync::mpsc::{channel, Receiver};
use std::thread::spawn;
use std::time::{Duration, Instant};

const PROMPT: Duration = Duration::from_secs(1);
/// How long a program is listened to where it has nothing to say.
const QUIET: Duration = Duration::from_millis(30);

pub fn check(program: &Path, counts: &mut Counts) -> Result<(), String> {
    row_by_row(program, "live, table A", &input_a(&[4294967290, 4, 3]), counts)?;
    let small_seeds = (0..).filter(|&seed| inputs::input(seed).class == inputs::SMALL);
    for seed in small_seeds.take(20) {
        row_by_row(program, &format!("live, seed {seed}"), &inputs::input(seed).bytes, counts)?;
    }
    let mut refused_table = vec![0x60, 37, 0];
    refused_table.extend(bytes(TABLE_A));
    refused_table.push(0);
    let endings = [
        ("live, wrong first byte", vec![0x61, 36, 0]),
        ("live, length 0", vec![0x60, 0, 0]),
        ("live, length 4,097", vec![0x60, 0x01, 0x10]),
        ("live, refused table", refused_table),
    ];
    for (name, input) in endings {
        ends_by_itself(program, name, &input, counts)?;
    }
    Ok(())
}

/// Hands over head, table and first row, then each row in two halves: nothing may come after the
/// first half, and all that is owed must come soon after the second. Then the input is closed.
fn row_by_row(program: &Path, name: &str, input: &[u8], counts: &mut Counts) -> Result<(), String> {
    counts.add("live", 1);
    let first_row = 3 + u16::from_le_bytes([input[1], input[2]]) as usize;
    let row = 4 * input[5] as usize;
    let mut live = Live::start(program)?;
    let mut sent = 0;
    for end in (first_row + row..=input.len()).step_by(row) {
        if sent > 0 {
            live.write(&input[sent..end - row / 2]);
            live.listen_until(Instant::now() + QUIET, usize::MAX);
            let owed = answer(&input[..end - row / 2]);
            same(name, input, owed.text[..owed.early].as_bytes(), &live.heard)?;
            sent = end - row / 2;
        }
        live.write(&input[sent..end]);
        let owed = answer(&input[..end]);
        live.listen_until(Instant::now() + PROMPT, owed.early);
        same(name, input, owed.text[..owed.early].as_bytes(), &live.heard)?;
        sent = end;
    }
    live.write(&input[sent..]);
    live.stdin = None;
    live.listen_until(Instant::now() + PROMPT, usize::MAX);
    same(name, input, answer(input).text.as_bytes(), &live.heard)?;
    live.end()
}

/// The output must end, with the input still open.
fn ends_by_itself(
    program: &Path,
    name: &str,
    input: &[u8],
    counts: &mut Counts,
) -> Result<(), String> {
    counts.add("live", 1);
    let mut live = Live::start(program)?;
    live.write(input);
    live.listen_until(Instant::now() + PROMPT, usize::MAX);
    same(name, input, answer(input).text.as_bytes(), &live.heard)?;
    if !live.over {
        live.child.kill().map_err(|error| error.to_string())?;
        return Err(format!("difference: {name}\nthe program doesn't end while its input is open"));
    }
    live.end()
}

/// A program that is being listened to.
struct Live {
    child: Child,
    /// None once it is closed.
    stdin: Option<ChildStdin>,
    pieces: Receiver<Vec<u8>>,
    heard: Vec<u8>,
    /// Whether the output has ended.
    over: bool,
}

impl Live {
    fn start(program: &Path) -> Result<Live, String> {
        let mut child = start(program)?;
        let stdin = child.stdin.take();
        let mut stdout = child.stdout.take().expect("a piped output");
        let (sender, pieces) = channel();
        spawn(move || {
            let mut piece = [0; 4096];
            // An end or a fault of the output closes the channel.
            while let Ok(count @ 1..) = stdout.read(&mut piece) {
                if sender.send(piece[..count].to_vec()).is_err() {
                    return;
                }
            }
        });
        Ok(Live { child, stdin, pieces, heard: Vec::new(), over: false })
    }

    /// A program that has ended already makes this fail, which its output then shows.
    fn write(&mut self, bytes: &[u8]) {
        if let Some(stdin) = &mut self.stdin {
            let _ = stdin.write_all(bytes).and_then(|()| stdin.flush());
        }
    }

    /// Listens until so many bytes have been heard in all, the output ends or the time is up.
    fn listen_until(&mut self, end: Instant, enough: usize) {
        while self.heard.len() < enough && !self.over {
            let left = end.saturating_duration_since(Instant::now());
            match self.pieces.recv_timeout(left) {
                Ok(piece) => self.heard.extend(piece),
                Err(std::sync::mpsc::RecvTimeoutError::Timeout) => return,
                Err(std::sync::mpsc::RecvTimeoutError::Disconnected) => self.over = true,
            }
        }
    }

    fn end(mut self) -> Result<(), String> {
        self.stdin = None;
        self.child.wait().map(|_| ()).map_err(|error| error.to_string())
    }
}

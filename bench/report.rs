//! The tables that the benchmark prints in Markdown, one for each question.

use crate::count::instructions;
use crate::measure::{Call, Side};
use crate::rounds::Line;
use baseline::tables::Named;

const ROUNDS: usize = 3;

/// What a row call may cost at most, beside the baseline that does the same work: its time, and its
/// instructions on each of the three tables.
const TIME_BAR: f64 = 1.1;
const COUNT_BARS: [f64; 3] = [1.0, 0.97, 0.9];

/// The rows of the runs that the ratios are taken of.
const USUAL: usize = 1000;

pub fn print(three: &[Named], growing: &[Named]) {
    let mut trace: Vec<Line> = three.iter().flat_map(runs).collect();
    let line = |table, call| Line::new(table, call, 1000);
    let mut checks: Vec<Line> = three.iter().map(|table| line(table, Call::Check)).collect();
    let mut growth: Vec<Line> = growing.iter().map(|table| line(table, Call::Row)).collect();
    for round in 0..ROUNDS {
        let lines = trace.iter_mut().chain(&mut checks).chain(&mut growth);
        lines.filter(|line| round == 0 || !line.long()).for_each(Line::measure);
    }
    println!("\n### An accepted row call\n");
    let usual: Vec<&Line> = trace.iter().filter(|line| line.count == USUAL).collect();
    print_calls(&usual);
    print_bars(&usual);
    println!("\n### The length of the trace\n");
    print_trace(&trace);
    println!("\n### The number of streams\n");
    print_growth(&growth);
    println!("\n### An accepting check call\n");
    print_calls(&checks.iter().collect::<Vec<&Line>>());
}

/// Runs from 1,000 to 1,000,000 rows.
fn runs(table: &Named) -> Vec<Line<'_>> {
    [1000, 10_000, 100_000, 1_000_000].map(|count| Line::new(table, Call::Row, count)).into()
}

/// Nanoseconds and instructions of a call, and the library's by each of the others.
fn print_calls(lines: &[&Line]) {
    let call = lines[0].call;
    let others = match call {
        Call::Row => "anew | once | library / anew | library / once |",
        Call::Check => "anew | library / anew |",
    };
    println!("| table | a call | library | {others}");
    println!("|---|---|{}", "---|".repeat(2 * call.sides().len() - 1));
    for line in lines {
        let times: Vec<_> = call.sides().iter().map(|&side| Some(line.nanoseconds(side))).collect();
        let counts: Vec<_> = call.sides().iter().map(|&side| line.instructions(side)).collect();
        let (name, bytes) = (&line.table.name, whole(line.table.bytes.len()));
        println!("| {name}, {bytes} bytes | ns | {} |", beside(&times));
        println!("| | instructions | {} |", beside(&counts));
    }
}

fn print_bars(lines: &[&Line]) {
    println!();
    for (line, bar) in lines.iter().zip(COUNT_BARS) {
        let name = &line.table.name;
        let time = line.nanoseconds(Side::Library) / line.nanoseconds(Side::Anew);
        println!("- time, at most {TIME_BAR:.2} on {name}: {}", met(time, TIME_BAR));
        let counts = line.instructions(Side::Library).zip(line.instructions(Side::Anew));
        if let Some((library, anew)) = counts {
            println!("- instructions, at most {bar:.2} on {name}: {}", met(library / anew, bar));
        }
    }
}

fn met(ratio: f64, bar: f64) -> String {
    format!("{} ({ratio:.2})", if ratio <= bar { "met" } else { "not met" })
}

fn print_trace(lines: &[Line]) {
    println!("| table | rows | library ns a row | anew | once | library instructions a row |");
    println!("|---|---|---|---|---|---|");
    for line in lines {
        let times = line.call.sides().iter().map(|&side| number(line.nanoseconds(side)));
        let times = times.collect::<Vec<_>>().join(" | ");
        // Valgrind is about fifty times as slow.
        let short = line.count * line.table.bytes.len() < 4_000_000;
        let count = short.then(|| instructions(Side::Library, line.call, line.table, line.count));
        let (name, rows, count) = (&line.table.name, whole(line.count), or_dash(count.flatten()));
        println!("| {name} | {rows} | {times} | {count} |");
    }
}

fn print_growth(lines: &[Line]) {
    println!("| table | bytes | library ns a row | ns a byte | instructions a row | a byte |");
    println!("|---|---|---|---|---|---|");
    for line in lines {
        let bytes = line.table.bytes.len();
        let time = line.nanoseconds(Side::Library);
        let count = line.instructions(Side::Library);
        let parts = [Some(time), Some(time / bytes as f64), count, count.map(|n| n / bytes as f64)];
        let parts = parts.map(or_dash).join(" | ");
        println!("| {} | {} | {parts} |", line.table.name, whole(bytes));
    }
}

/// The numbers of the sides, then the library's by each of the others.
fn beside(numbers: &[Option<f64>]) -> String {
    let ratio = |other: &Option<f64>| match (numbers[0], other) {
        (Some(library), Some(other)) => format!("{:.2}", library / other),
        _ => "-".to_string(),
    };
    let shown = numbers.iter().map(|&value| or_dash(value));
    shown.chain(numbers[1..].iter().map(ratio)).collect::<Vec<_>>().join(" | ")
}

fn or_dash(value: Option<f64>) -> String {
    value.map_or("-".to_string(), number)
}

/// One digit behind the point where there are few before it.
fn number(value: f64) -> String {
    if value < 100.0 {
        format!("{value:.1}")
    } else {
        whole(value.round() as usize)
    }
}

/// A comma before each three digits.
fn whole(value: usize) -> String {
    if value < 1000 {
        return value.to_string();
    }
    format!("{},{:03}", whole(value / 1000), value % 1000)
}

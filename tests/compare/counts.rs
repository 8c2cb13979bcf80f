//! What the comparisons met, counted from the expected output. A class that never occurred makes
//! the whole test fail: such a test couldn't have found a fault there.

use reference::program::Answer;
use std::collections::BTreeMap;

#[derive(Default)]
pub struct Counts {
    numbers: BTreeMap<String, u64>,
}

/// What must occur, in the order of the printed line.
const CLASSES: [&str; 25] = [
    "inputs",
    "in pieces",
    "live",
    "accepted tables",
    "accepted tables of 4096 bytes",
    "accepted tables of 32 streams",
    "refused heads",
    "refused 1",
    "refused 2",
    "refused 3",
    "refused 4",
    "refused 5",
    "refused 6",
    "refused 7",
    "refused 8",
    "refused 9",
    "empty inputs",
    "cut in head",
    "cut in table",
    "cut in row",
    "rows accepted",
    "rows refused",
    "values",
    "values on closing turns",
    "triggers",
];

impl Counts {
    pub fn add(&mut self, class: &str, number: u64) {
        *self.numbers.entry(class.to_string()).or_insert(0) += number;
    }

    pub fn merge(&mut self, other: Counts) {
        for (class, number) in other.numbers {
            self.add(&class, number);
        }
    }

    pub fn count(&mut self, input: &[u8], answer: &Answer) {
        self.add("inputs", 1);
        match answer.text.lines().last().and_then(|line| line.strip_prefix("end ")) {
            Some(rows) => self.count_run(input, answer, rows.parse().expect("a number of rows")),
            None => self.add(&class_without_run(input, &answer.text), 1),
        }
    }

    fn count_run(&mut self, input: &[u8], answer: &Answer, rows: u64) {
        self.add("accepted tables", 1);
        self.add("accepted tables of 4096 bytes", (input[1..3] == [0x00, 0x10]) as u64);
        self.add("accepted tables of 32 streams", (input[5] + input[6] == 32) as u64);
        self.add("rows accepted", rows);
        self.add("rows refused", lines(&answer.text, "r "));
        self.add("cut in row", lines(&answer.text, "s "));
        self.add("values", lines(&answer.text, "v "));
        self.add("values on closing turns", lines(&answer.text[answer.early..], "v "));
        self.add("triggers", lines(&answer.text, "t "));
    }

    /// One line with all counts.
    pub fn line(&self) -> String {
        let texts: Vec<String> =
            CLASSES.iter().map(|class| format!("{class} {}", self.number(class))).collect();
        texts.join(", ")
    }

    /// The classes that never occurred.
    pub fn missing(&self) -> Vec<&'static str> {
        CLASSES.into_iter().filter(|class| self.number(class) == 0).collect()
    }

    fn number(&self, class: &str) -> u64 {
        self.numbers.get(class).copied().unwrap_or(0)
    }
}

fn lines(text: &str, start: &str) -> u64 {
    text.lines().filter(|line| line.starts_with(start)).count() as u64
}

/// The class of an input whose output has no `end` line.
fn class_without_run(input: &[u8], text: &str) -> String {
    match input {
        [] => "empty inputs".to_string(),
        [0x60] | [0x60, _] => "cut in head".to_string(),
        [0x60, ..] if text.starts_with('s') => "cut in table".to_string(),
        [0x60, ..] => format!("refused {}", text.split(' ').nth(1).expect("a refusal's number")),
        _ => "refused heads".to_string(),
    }
}

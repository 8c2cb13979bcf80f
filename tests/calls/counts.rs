//! How often each entry gave each answer and each class of calls occurred. One that occurred too
//! seldom makes the whole test fail.

use crate::call::{Call, Entry, Outcome, ENTRIES};
use crate::classes::{classes, CLASSES};
use crate::reading::faults;
use std::collections::BTreeMap;

const FEWEST: u64 = 20;

#[derive(Default)]
pub struct Counts {
    answers: BTreeMap<(Entry, u32), u64>,
    /// Two faults of one call, of which the first was answered.
    pairs: BTreeMap<(Entry, u32, u32), u64>,
    classes: BTreeMap<&'static str, u64>,
}

/// The refusals that an entry can answer on an accepted table.
fn refusals(entry: Entry) -> &'static [u32] {
    match entry {
        Entry::Check => &[],
        Entry::Open => &[11],
        Entry::Row => &[10, 11, 12, 13, 14, 15, 16],
        Entry::Close => &[10, 12],
        Entry::Drain => &[10, 11, 12, 16],
    }
}

/// All that an entry can answer, 0 for acceptance.
fn numbers(entry: Entry) -> impl Iterator<Item = u32> {
    (0..10).chain(refusals(entry).iter().copied())
}

/// Any two of an entry's refusals: their order must be seen.
fn pairs(entry: Entry) -> impl Iterator<Item = (u32, u32)> {
    let numbers = refusals(entry);
    let later = move |first: u32| numbers.iter().filter(move |number| **number > first);
    numbers.iter().flat_map(move |&first| later(first).map(move |&second| (first, second)))
}

impl Counts {
    pub fn count(&mut self, call: &Call, outcome: &Outcome) {
        *self.answers.entry((call.entry, outcome.number)).or_insert(0) += 1;
        if let [first, others @ ..] = &faults(call)[..] {
            for second in others {
                *self.pairs.entry((call.entry, *first, *second)).or_insert(0) += 1;
            }
        }
        for (class, holds) in classes(call, outcome) {
            self.add(class, holds as u64);
        }
    }

    pub fn add(&mut self, class: &'static str, number: u64) {
        *self.classes.entry(class).or_insert(0) += number;
    }

    pub fn calls(&self) -> u64 {
        self.answers.values().sum()
    }

    /// For each entry a line with its answers, the faults beside the answered one behind it; then
    /// a line with the classes.
    pub fn lines(&self) -> String {
        let mut lines = String::new();
        for entry in ENTRIES {
            let answers =
                numbers(entry).map(|number| format!("{number}: {}", self.answer(entry, number)));
            let pairs = pairs(entry).map(|(first, second)| {
                format!("{first} before {second}: {}", self.pair(entry, first, second))
            });
            let texts: Vec<String> = answers.chain(pairs).collect();
            lines += &format!("{entry:?} answered {}\n", texts.join(", "));
        }
        let texts: Vec<String> =
            CLASSES.iter().map(|class| format!("{class} {}", self.class(class))).collect();
        lines + &texts.join(", ") + "\n"
    }

    /// What occurred fewer than `FEWEST` times.
    pub fn too_few(&self) -> Vec<String> {
        let mut few = Vec::new();
        for entry in ENTRIES {
            let answers = numbers(entry).filter(|&number| self.answer(entry, number) < FEWEST);
            few.extend(answers.map(|number| format!("{entry:?} answered {number}")));
            let pairs =
                pairs(entry).filter(|&(first, second)| self.pair(entry, first, second) < FEWEST);
            let text = |(first, second)| format!("{entry:?} answered {first} before {second}");
            few.extend(pairs.map(text));
        }
        let classes = CLASSES.into_iter().filter(|class| self.class(class) < FEWEST);
        few.extend(classes.map(str::to_string));
        few
    }

    fn answer(&self, entry: Entry, number: u32) -> u64 {
        self.answers.get(&(entry, number)).copied().unwrap_or(0)
    }

    fn pair(&self, entry: Entry, first: u32, second: u32) -> u64 {
        self.pairs.get(&(entry, first, second)).copied().unwrap_or(0)
    }

    fn class(&self, class: &str) -> u64 {
        self.classes.get(class).copied().unwrap_or(0)
    }
}

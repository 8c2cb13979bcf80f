//! What can be wrong with a call, or only unusual: one change each of table, record, store, row or
//! output. Whether a changed call is refused, and how, is for the reading to say.

use crate::call::{Call, Record, DRAINING, OVER, READING};
use crate::known::KnownTable;
use crate::random::Random;
use crate::right::{self, noise, noise_words};
use std::rc::Rc;

type Change = fn(&mut Random, &mut Call, &[Rc<KnownTable>]);

/// A change stands here as often as it is to occur in a round.
const CHANGES: [Change; 34] = [
    byte_of_table,
    byte_of_table,
    table_shorter,
    table_longer,
    another_table,
    another_table,
    another_run,
    another_run,
    look_ahead,
    kept,
    rows,
    rows,
    done,
    done,
    done,
    phase,
    phase,
    record_of_another_table,
    record_of_noise,
    elsewhere_in_the_run,
    elsewhere_in_the_run,
    elsewhere_in_the_run,
    store_shorter,
    store_shorter,
    noise_in_store,
    noise_in_store,
    row_of_other_length,
    words_above_one,
    output_shorter,
    output_shorter,
    many_things,
    many_things,
    many_things,
    many_things,
];

/// Changes the call in one to four ways. `others` are tables to take in place of its own.
pub fn change(random: &mut Random, call: &mut Call, others: &[Rc<KnownTable>]) {
    for _ in 0..random.pick(&[1, 1, 1, 1, 2, 2, 3, 4]) {
        let change = random.pick(&CHANGES);
        change(random, call, others);
    }
}

/// Half of the things that refusals 10 to 16 speak of, for the order of the tests.
fn many_things(random: &mut Random, call: &mut Call, others: &[Rc<KnownTable>]) {
    let things: [Change; 7] = [
        elsewhere_in_the_run,
        row_limit,
        phase,
        store_shorter,
        row_of_other_length,
        words_above_one,
        output_shorter,
    ];
    for thing in things {
        if random.once_in(2) {
            thing(random, call, others);
        }
    }
}

fn row_limit(_: &mut Random, call: &mut Call, _: &[Rc<KnownTable>]) {
    call.record.rows = 0xFFFF_FFFF;
}

fn byte_of_table(random: &mut Random, call: &mut Call, _: &[Rc<KnownTable>]) {
    let mut bytes = call.table.bytes.clone();
    let place = place_in(random, &call.table);
    let Some(byte) = bytes.get_mut(place) else { return };
    *byte = match random.below(5) {
        0 => *byte ^ (1 << random.below(8)),
        1 => byte.wrapping_add(1),
        2 => byte.wrapping_sub(1),
        3 => random.below(0x30) as u8,
        _ => random.next() as u8,
    };
    call.table = KnownTable::new(bytes);
}

fn table_shorter(random: &mut Random, call: &mut Call, _: &[Rc<KnownTable>]) {
    let length = call.table.bytes.len();
    let shorter = match random.below(4) {
        0 => random.below(2),
        1 => length.saturating_sub(1),
        _ => place_in(random, &call.table),
    };
    call.table = KnownTable::new(call.table.bytes[..shorter.min(length)].to_vec());
}

/// Any place in the table, or one in the record where the scan stopped: then a record has two
/// faults, and their order counts.
fn place_in(random: &mut Random, table: &KnownTable) -> usize {
    match &table.checked {
        Err(refusal) if refusal.number < 7 && random.once_in(2) => refusal.place + random.below(8),
        _ => random.below(table.bytes.len().max(1)),
    }
}

/// A byte or some more at the end, or as many as make the longest table or one byte too many.
fn table_longer(random: &mut Random, call: &mut Call, _: &[Rc<KnownTable>]) {
    let mut bytes = call.table.bytes.clone();
    let length = match random.below(4) {
        0 => bytes.len() + 1,
        1 => bytes.len() + random.below(30),
        2 => 4096,
        _ => 4097,
    };
    let fill = random.pick(&[0x00, 0x04, 0x10, 0xFF]);
    bytes.resize(length.max(bytes.len()), fill);
    call.table = KnownTable::new(bytes);
}

fn another_table(random: &mut Random, call: &mut Call, others: &[Rc<KnownTable>]) {
    call.table = others[random.below(others.len())].clone();
}

/// Another table, and somewhere in a run of it, with everything else as that one wants it.
fn another_run(random: &mut Random, call: &mut Call, others: &[Rc<KnownTable>]) {
    let other = &others[random.below(others.len())];
    let store = noise_words(random, other.numbers().words);
    *call = right::call(random, call.entry, other, other.opened(), store);
    elsewhere_in_the_run(random, call, others);
}

fn look_ahead(random: &mut Random, call: &mut Call, _: &[Rc<KnownTable>]) {
    let stream = random.below(call.record.look.len());
    call.record.look[stream] = other_number(random, call.record.look[stream]);
}

fn kept(random: &mut Random, call: &mut Call, _: &[Rc<KnownTable>]) {
    let stream = random.below(call.record.kept.len());
    call.record.kept[stream] = other_number(random, call.record.kept[stream]);
}

fn other_number(random: &mut Random, number: u16) -> u16 {
    match random.below(4) {
        0 => number.wrapping_add(1),
        1 => number.wrapping_sub(1),
        2 => number ^ (1 << random.below(16)),
        _ => random.next() as u16,
    }
}

/// Near the row limit, near the numbers at hand, or any.
fn rows(random: &mut Random, call: &mut Call, _: &[Rc<KnownTable>]) {
    let now = call.record.rows;
    let closing = call.table.numbers().closing as u32;
    let near = [0, 0, 1, now.wrapping_add(1), now.wrapping_sub(1), closing, closing + 1];
    call.record.rows = match random.below(4) {
        0 => random.pick(&[0xFFFF_FFFF, 0xFFFF_FFFE, 0xFFFF_FFFE, 0xFFFF_FFFD]),
        1 | 2 => random.pick(&near),
        _ => random.next() as u32,
    };
}

fn done(random: &mut Random, call: &mut Call, _: &[Rc<KnownTable>]) {
    let closing = call.table.numbers().closing;
    let near = [0, 1, closing, closing.wrapping_sub(1), closing + 1];
    call.record.done = match random.once_in(3) {
        true => other_number(random, call.record.done),
        false => random.pick(&near),
    };
}

/// A phase byte above 2 is no phase.
fn phase(random: &mut Random, call: &mut Call, _: &[Rc<KnownTable>]) {
    call.record.phase = match random.once_in(4) {
        true => random.next() as u8,
        false => random.pick(&[READING, DRAINING, OVER, 3, 4, 0x80, 0xFF]),
    };
}

fn record_of_another_table(random: &mut Random, call: &mut Call, others: &[Rc<KnownTable>]) {
    let Record { rows, done, phase, .. } = call.record;
    let other = &others[random.below(others.len())];
    call.record = Record { rows, done, phase, ..other.opened() };
}

/// A record of zeros or of anything.
fn record_of_noise(random: &mut Random, call: &mut Call, _: &[Rc<KnownTable>]) {
    call.record = Record::default();
    if random.once_in(2) {
        call.record.look = std::array::from_fn(|_| random.next() as u16);
        call.record.kept = std::array::from_fn(|_| random.next() as u16);
        call.record.rows = random.next() as u32;
        call.record.done = random.next() as u16;
        call.record.phase = random.next() as u8;
    }
}

/// A record of this table in some phase, after any number of rows and closing turns.
fn elsewhere_in_the_run(random: &mut Random, call: &mut Call, others: &[Rc<KnownTable>]) {
    let closing = call.table.numbers().closing;
    rows(random, call, others);
    let some_rows = call.record.rows > 0;
    let draining = if some_rows && closing > 0 { DRAINING } else { READING };
    call.record.phase = random.pick(&[READING, READING, draining, draining, draining, OVER]);
    call.record.done = match call.record.phase {
        DRAINING if random.once_in(2) => closing - 1,
        DRAINING => random.below(closing as usize) as u16,
        OVER if some_rows => closing,
        _ => 0,
    };
    if random.once_in(2) {
        noise_in_store(random, call, others);
    }
}

fn store_shorter(random: &mut Random, call: &mut Call, _: &[Rc<KnownTable>]) {
    let words = call.table.numbers().words;
    let shorter = match random.below(4) {
        0 => random.below(words + 1),
        1 => 0,
        _ => words.saturating_sub(1),
    };
    call.store.truncate(shorter);
}

/// Some words of the store, or all of them.
fn noise_in_store(random: &mut Random, call: &mut Call, _: &[Rc<KnownTable>]) {
    let all = random.once_in(2);
    let one_in = random.pick(&[1, 3, 20]);
    for word in &mut call.store {
        if all || random.once_in(one_in) {
            *word = noise(random);
        }
    }
}

fn row_of_other_length(random: &mut Random, call: &mut Call, _: &[Rc<KnownTable>]) {
    let length = call.row.len();
    let other = match random.below(5) {
        0 => 0,
        1 | 2 => length.saturating_sub(1),
        3 => length + 1,
        _ => 2 * length,
    };
    let filler = noise(random);
    call.row.resize(other, filler);
}

/// One to three words of the row above 1: wrong where the input is a flag.
fn words_above_one(random: &mut Random, call: &mut Call, _: &[Rc<KnownTable>]) {
    for _ in 0..random.between(1, 3) {
        let word = random.pick(&[2, 3, 0x100, 0x0100_0000, 0x8000_0000, 0xFFFF_FFFF]);
        let length = call.row.len().max(1);
        if let Some(place) = call.row.get_mut(random.below(length)) {
            *place = word;
        }
    }
}

fn output_shorter(random: &mut Random, call: &mut Call, _: &[Rc<KnownTable>]) {
    let room = call.table.numbers().room;
    let shorter = match random.below(4) {
        0 => random.below(room + 1),
        1 => 0,
        _ => room.saturating_sub(1),
    };
    call.output.truncate(shorter);
}

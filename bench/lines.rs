//! The lines of the program, appended to a buffer (document 01, "The program").

use crate::check::word_at;
use crate::output::{TRIGGER, VALUE};
use crate::Refusal;

/// A space and a decimal number.
fn put_decimal(text: &mut Vec<u8>, number: u64) {
    text.push(b' ');
    let mut digits = 1;
    let mut rest = number / 10;
    while rest > 0 {
        digits += 1;
        rest /= 10;
    }
    let from = text.len();
    text.resize(from + digits, 0);
    rest = number;
    for digit in text[from..].iter_mut().rev() {
        *digit = b'0' + (rest % 10) as u8;
        rest /= 10;
    }
}

/// A space and eight lower-case hex digits.
fn put_hex(text: &mut Vec<u8>, word: u32) {
    let digit = |i: u32| b"0123456789abcdef"[(word >> (28 - 4 * i)) as usize & 15];
    text.push(b' ');
    text.extend((0..8).map(digit));
}

/// The lines of a call's records: `v stream position value` for a 50, `t stream position` for a 51.
pub fn put_records(text: &mut Vec<u8>, mut records: &[u8]) {
    while let [kind, stream, ..] = *records {
        let value = kind == 0x50;
        text.push(if value { b'v' } else { b't' });
        put_decimal(text, stream as u64);
        put_decimal(text, word_at(records, 2) as u64);
        if value {
            put_hex(text, word_at(records, 6));
        }
        text.push(b'\n');
        records = &records[if value { VALUE } else { TRIGGER }..];
    }
}

/// `r number place`.
pub fn put_refusal(text: &mut Vec<u8>, refusal: Refusal) {
    text.push(b'r');
    put_decimal(text, refusal.number as u64);
    put_decimal(text, refusal.place as u64);
    text.push(b'\n');
}

/// `s n`: the input stopped inside something, n bytes read in all.
pub fn put_stop(text: &mut Vec<u8>, read: u64) {
    text.push(b's');
    put_decimal(text, read);
    text.push(b'\n');
}

/// `end N`, the last line.
pub fn put_end(text: &mut Vec<u8>, rows: u32) {
    text.extend_from_slice(b"end");
    put_decimal(text, rows as u64);
    text.push(b'\n');
}

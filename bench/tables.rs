//! The tables of the benchmarks. Equations read streams that stand before them and their own past,
//! as one would write them by hand.

use crate::check::{FLAG, LEVEL, WORD};
use crate::expressions::*;

/// A table with its name and the types of its inputs.
pub struct Named {
    pub name: String,
    pub inputs: Vec<u8>,
    pub bytes: Vec<u8>,
}

/// The three tables of the row call's benchmark.
pub fn three() -> Vec<Named> {
    let types = |stream: u8| [FLAG, WORD, LEVEL][stream as usize % 3];
    vec![table_a(), mixed(), wide("32 streams".to_string(), 32, types)]
}

/// Tables of words only that differ in the number of streams alone.
pub fn growing() -> Vec<Named> {
    [4, 8, 16, 32].map(|streams| wide(format!("{streams} word streams"), streams, |_| WORD)).into()
}

/// Table A of document 01: the step of a word, and whether it is ahead of the next.
pub fn table_a() -> Named {
    let inputs = vec![WORD];
    let step = sub(now(0), at(0, -1, 0));
    let falls = ahead(now(0), at(0, 1, 7));
    let bytes = table(&inputs, &[plain(WORD, step), trigger(falls)]);
    assert_eq!(bytes, TABLE_A, "the builder gives document 01's bytes");
    Named { name: "A".to_string(), inputs, bytes }
}

const TABLE_A: [u8; 36] = [
    0x01, 0x01, 0x01, 0x02, 0x02, 0x01, 0x03, 0x01, 0x00, 0x03, 0x00, 0x01, 0x04, 0x01, 0x25, 0x13,
    0x00, 0x14, 0x00, 0xFF, 0x00, 0x00, 0x00, 0x00, 0x04, 0x02, 0x26, 0x13, 0x00, 0x14, 0x00, 0x01,
    0x07, 0x00, 0x00, 0x00,
];

/// Eight streams of all types, with past and future references and an if. Inputs are a flag, a
/// stamp and a level.
fn mixed() -> Named {
    let inputs = vec![FLAG, WORD, LEVEL];
    let step = sub(now(1), at(1, -1, 0));
    let old = mul_levels(level(0.75), at(4, -1, 0));
    let smooth = add_levels(mul_levels(level(0.25), now(2)), old);
    let rises = less_levels(now(4), at(4, 1, 0));
    let count = choose(and(now(0), now(5)), add(at(6, -1, 0), word(1)), word(0));
    let back = and(ahead(now(3), at(1, 2, 0)), not(at(0, -1, 0)));
    let outputs = [
        plain(WORD, step),
        plain(LEVEL, smooth),
        plain(FLAG, rises),
        plain(WORD, count),
        trigger(or(less(word(2), now(6)), back)),
    ];
    let bytes = table(&inputs, &outputs);
    Named { name: "8 streams".to_string(), inputs, bytes }
}

/// A quarter of the streams are inputs. Each equation has the same bytes: six terms of 26, joined.
fn wide(name: String, streams: u8, types: impl Fn(u8) -> u8) -> Named {
    let first = streams / 4;
    let inputs: Vec<u8> = (0..first).map(&types).collect();
    let output = |stream| {
        let terms = (0..6).map(|i| term(stream, i, &types));
        let joined = terms.reduce(|all, term| match types(stream) {
            FLAG => equal_flags(all, term),
            WORD => sub(all, term),
            _ => sub_levels(all, term),
        });
        let expression = joined.expect("there are six");
        if types(stream) == FLAG {
            trigger(expression)
        } else {
            plain(types(stream), expression)
        }
    };
    let outputs: Vec<Equation> = (first..streams).map(output).collect();
    let bytes = table(&inputs, &outputs);
    Named { name, inputs, bytes }
}

/// The i-th term of a stream's equation, of the stream's type.
fn term(stream: u8, i: u8, types: &impl Fn(u8) -> u8) -> Expression {
    let before = |own: u8, step: u8| {
        let of_type: Vec<u8> = (0..stream).filter(|&other| types(other) == own).collect();
        of_type[(stream + 5 * i + step) as usize % of_type.len()]
    };
    let own = types(stream);
    let (a, b, c) = (before(own, 0), before(own, 1), before(own, 2));
    let last = at(stream, -1, 0);
    let size = u32::from(i) << 29;
    match own {
        FLAG => or(and(now(a), not(last)), not(less(at(before(WORD, 3), 1, 9), word(size)))),
        WORD => choose(ahead(now(a), last), add(now(b), word(size)), at(c, 1, 7)),
        _ => choose(less_levels(last, now(a)), mul_levels(now(b), level(0.5)), at(c, 1, 0)),
    }
}

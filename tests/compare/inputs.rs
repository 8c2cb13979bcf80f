//! From a seed to an input of the program. The seed's class is one of `CLASSES`, so that any run of
//! as many seeds has them all.

use crate::random::Random;
use crate::tables::{table, table_of_length, value, Made, Plan, FLAG, LEVEL, WORD};

/// One input and how it is handed over.
pub struct Input {
    pub class: &'static str,
    pub bytes: Vec<u8>,
    pub in_pieces: bool,
}

type Maker = fn(&mut Random) -> Vec<u8>;

/// A class stands here as often as it is to occur in a round of seeds.
const CLASSES: [(&str, Maker); 35] = [
    (SMALL, small),
    (SMALL, small),
    (SMALL, small),
    (SMALL, small),
    ("middle", middle),
    ("middle", middle),
    ("middle", middle),
    ("large", large),
    ("large", large),
    ("full", full),
    ("full", full),
    ("same turn", same_turn),
    ("same turn", same_turn),
    ("far ahead", far_ahead),
    ("far ahead", far_ahead),
    ("deep", deep),
    ("too deep", too_deep),
    ("loops", loops),
    ("loops", loops),
    ("loops", loops),
    ("twice round", twice_round),
    ("brim", brim),
    ("flipped", flipped),
    ("flipped", flipped),
    ("flipped", flipped),
    ("mistyped", mistyped),
    ("mistyped", mistyped),
    ("shortened", shortened),
    ("extended", extended),
    ("head", head),
    ("stopped", stopped),
    ("bad flags", bad_flags),
    ("many rows", many_rows),
    ("long memory", long_memory),
    (IN_PIECES, middle),
];

pub const SMALL: &str = "small";
const IN_PIECES: &str = "in pieces";

pub fn input(seed: u64) -> Input {
    let (class, make) = CLASSES[(seed % CLASSES.len() as u64) as usize];
    let mut random = Random::new(seed);
    Input { class, bytes: make(&mut random), in_pieces: class == IN_PIECES }
}

/// Kind byte 60, two bytes of table length, the table, the rows.
fn whole(table: &[u8], rows: &[u8]) -> Vec<u8> {
    let length = (table.len() as u16).to_le_bytes();
    [&[0x60], &length[..], table, rows].concat()
}

/// A row's bytes; once in `bad` rows a flag word is above 1 (never if 0).
fn row(random: &mut Random, types: &[u8], bad: usize) -> Vec<u8> {
    let mut bytes = Vec::new();
    let spoilt = bad > 0 && random.once_in(bad);
    for &own in types {
        let mut word = value(random, own);
        if spoilt && own == FLAG && random.once_in(2) {
            word = random.pick(&[2, 3, 0x100, 0x0100_0000, 0x8000_0000, 0xFFFF_FFFF]);
        }
        bytes.extend(word.to_le_bytes());
    }
    bytes
}

fn rows(random: &mut Random, made: &Made, count: usize, bad: usize) -> Vec<u8> {
    (0..count).flat_map(|_| row(random, &made.input_types, bad)).collect()
}

/// A table after this plan with up to `most` rows, a spoilt one now and then.
fn after(random: &mut Random, plan: &Plan, most: usize) -> Vec<u8> {
    let made = table(random, plan);
    let count = random.below(most + 1);
    let rows = rows(random, &made, count, 30);
    whole(&made.bytes, &rows)
}

/// A plan of this many streams at most, with modest numbers that a class then changes.
fn plan(random: &mut Random, streams: usize) -> Plan {
    let inputs = 1 + random.below(streams - 1);
    let outputs = 1 + random.below(streams - inputs);
    let reach = random.pick(&[1, 2, 3, 5, 9, 20]);
    let spread = random.pick(&[0, 1, 2, 6, 12]);
    let bytes = random.pick(&[3, 10, 30, 60]);
    let input_types = &[FLAG, WORD, LEVEL];
    let (levels, deep, lawless) = (16, false, false);
    Plan { inputs, outputs, input_types, reach, spread, bytes, levels, deep, lawless }
}

fn small_plan(random: &mut Random) -> Plan {
    plan(random, 6)
}

fn small(random: &mut Random) -> Vec<u8> {
    let plan = small_plan(random);
    after(random, &plan, 12)
}

fn middle(random: &mut Random) -> Vec<u8> {
    let mut plan = plan(random, 14);
    plan.bytes = random.pick(&[20, 60, 150]);
    plan.reach = random.pick(&[2, 10, 40, 127]);
    plan.spread = random.pick(&[0, 3, 20, 60]);
    after(random, &plan, 40)
}

/// All 32 streams most of the time.
fn large(random: &mut Random) -> Vec<u8> {
    let mut plan = plan(random, 32);
    plan.outputs = if random.once_in(4) { plan.outputs } else { 32 - plan.inputs };
    plan.bytes = random.pick(&[10, 40, 100]);
    after(random, &plan, 30)
}

/// Tables of the largest lengths; one byte too long once in eight.
fn full(random: &mut Random) -> Vec<u8> {
    let streams = 2 + random.below(31);
    let mut plan = plan(random, streams);
    plan.bytes = random.below(3600 / plan.outputs).max(5);
    let length = random.pick(&[4096, 4096, 4096, 4096, 4096, 4095, 4000, 4097]);
    let made = table_of_length(random, &plan, length);
    let count = random.below(15);
    let rows = rows(random, &made, count, 30);
    whole(&made.bytes, &rows)
}

/// Outputs that read one another's present values, half of the time against stream order.
fn same_turn(random: &mut Random) -> Vec<u8> {
    let mut plan = plan(random, 20);
    plan.inputs = 1 + random.below(4);
    plan.spread = 0;
    plan.reach = random.pick(&[0, 1, 3]);
    plan.bytes = random.pick(&[3, 12, 30]);
    after(random, &plan, 15)
}

/// Far look-ahead, often with fewer rows than that: defaults at both ends of the trace.
fn far_ahead(random: &mut Random) -> Vec<u8> {
    let mut plan = plan(random, 8);
    plan.reach = random.pick(&[5, 30, 127]);
    plan.spread = random.pick(&[10, 60, 127]);
    after(random, &plan, 25)
}

/// Expressions of up to 16 levels.
fn deep(random: &mut Random) -> Vec<u8> {
    let mut plan = plan(random, 6);
    plan.deep = true;
    plan.bytes = random.pick(&[120, 200, 400]);
    after(random, &plan, 10)
}

/// Expressions that go to level 17 if their bytes last.
fn too_deep(random: &mut Random) -> Vec<u8> {
    let mut plan = plan(random, 6);
    plan.deep = true;
    plan.levels = 17;
    plan.bytes = random.pick(&[60, 120, 200, 400]);
    after(random, &plan, 5)
}

/// References that don't mind loops: refusal 7 at many places, and some that pass.
fn loops(random: &mut Random) -> Vec<u8> {
    let streams = random.pick(&[4, 8, 16, 32]);
    let mut plan = plan(random, streams);
    plan.lawless = true;
    plan.inputs = 1 + random.below(3.min(streams - 1));
    plan.outputs = 1 + random.below(streams - plan.inputs);
    plan.bytes = random.pick(&[2, 7, 10]);
    after(random, &plan, 8)
}

/// A loop of small positive total that other streams reach and leave at a loss: whether they are
/// the place depends on how often S edges can go round. Streams are numbered in a random order.
fn twice_round(random: &mut Random) -> Vec<u8> {
    let most = random.pick(&[4, 4, 31]);
    let outputs = random.between(2, most) as usize;
    let most = random.pick(&[1, 32 - outputs]);
    let inputs = 1 + random.below(most);
    let mut names: Vec<usize> = (inputs..inputs + outputs).collect();
    for left in (1..names.len()).rev() {
        names.swap(left, random.below(left + 1));
    }
    let ring = 1 + random.below(outputs.min(5));
    let mut expressions = vec![vec![0x13, 0]; outputs];
    // The ring: one edge of a small total, the others of 0 (now).
    for (place, &name) in names[..ring].iter().enumerate() {
        let gain = if place == 0 { random.between(-1, 4) } else { 0 };
        expressions[name - inputs] = read_word(names[(place + 1) % ring], gain);
    }
    // The others: into the ring at a loss, and back out of it at a loss.
    let loss = random.between(1, 40);
    for &name in names[ring..].iter().take(3) {
        expressions[name - inputs] = read_word(names[random.below(ring)], -random.between(1, loss));
        let leaver = names[random.below(ring)] - inputs;
        let out = read_word(name, -random.between(1, loss));
        expressions[leaver] = [vec![0x24], out, expressions[leaver].clone()].concat();
    }
    whole(&words_table(inputs, expressions), &row(random, &vec![WORD; inputs], 0))
}

/// at(stream, k) of a word, or now where k is 0.
fn read_word(stream: usize, offset: i64) -> Vec<u8> {
    match offset {
        0 => vec![0x13, stream as u8],
        _ => vec![0x14, stream as u8, offset as i8 as u8, 5, 0, 0, 0],
    }
}

/// A table whose streams are all plain words.
fn words_table(inputs: usize, expressions: Vec<Vec<u8>>) -> Vec<u8> {
    let mut bytes = vec![0x01, 1, inputs as u8, expressions.len() as u8];
    bytes.extend([0x02, 1].repeat(inputs));
    bytes.extend([0x03, 1, 0].repeat(expressions.len()));
    for (number, expression) in expressions.into_iter().enumerate() {
        bytes.extend([0x04, (inputs + number) as u8]);
        bytes.extend(expression);
    }
    bytes
}

/// Thirty-one inputs and one output as in document 01's example, varied so that the store words are
/// 4,095, 4,096 or 4,097: what one input's offset lacks the output's own offset makes up.
fn brim(random: &mut Random) -> Vec<u8> {
    let lack = random.between(0, 31);
    let lacking = random.below(31);
    let offset = |input| if input == lacking { -128 + lack } else { -128 };
    let mut leaves: Vec<Vec<u8>> = (0..31).map(|input| read_word(input, offset(input))).collect();
    leaves.push(read_word(31, -96 - lack + random.between(-1, 1)));
    let count = random.below(150);
    let rows: Vec<u8> = (0..count).flat_map(|_| row(random, &[WORD; 31], 0)).collect();
    whole(&words_table(31, vec![sum(&leaves)]), &rows)
}

/// The balanced tree of adds over these leaves.
fn sum(leaves: &[Vec<u8>]) -> Vec<u8> {
    if leaves.len() == 1 {
        return leaves[0].clone();
    }
    let (left, right) = leaves.split_at(leaves.len() / 2);
    [vec![0x24], sum(left), sum(right)].concat()
}

/// A chain of far look-aheads whose last stream also reads the input far back: hundreds of values
/// are kept, and there are rows enough to go round them.
fn long_memory(random: &mut Random) -> Vec<u8> {
    let steps = random.between(2, 5) as usize;
    let offsets: Vec<i64> = (0..steps).map(|_| random.between(60, 127)).collect();
    let back = -random.between(1, 128);
    let count = offsets.iter().sum::<i64>() - back + random.between(1, 150);
    let rows: Vec<u8> = (0..count).flat_map(|_| row(random, &[WORD], 0)).collect();
    whole(&chain(&offsets, back), &rows)
}

/// One word input 0 and a chain of outputs, each reading the stream before it at its offset; the
/// last also reads the input at `back`, which is below 0.
pub fn chain(offsets: &[i64], back: i64) -> Vec<u8> {
    let mut expressions: Vec<Vec<u8>> =
        offsets.iter().enumerate().map(|(before, &offset)| read_word(before, offset)).collect();
    let last = expressions.pop().expect("a step");
    expressions.push(sum(&[last, read_word(0, back)]));
    words_table(1, expressions)
}

/// A small input and its table's length, to be damaged.
fn to_damage(random: &mut Random) -> (Vec<u8>, usize) {
    let plan = small_plan(random);
    let made = table(random, &plan);
    let count = random.below(6);
    let rows = rows(random, &made, count, 0);
    (whole(&made.bytes, &rows), made.bytes.len())
}

/// One to three bytes of the table changed.
fn flipped(random: &mut Random) -> Vec<u8> {
    let (mut bytes, length) = to_damage(random);
    for _ in 0..1 + random.below(3) {
        let place = 3 + random.below(length);
        bytes[place] = match random.below(6) {
            0 => bytes[place] ^ (1 << random.below(8)),
            1 => bytes[place].wrapping_add(1),
            2 => bytes[place].wrapping_sub(1),
            3 => random.below(6) as u8,
            4 => 0x10 + random.below(0x21) as u8,
            _ => random.next() as u8,
        };
    }
    bytes
}

/// One stream's type changed, so that what reads it or defines it is no longer of the wanted type.
fn mistyped(random: &mut Random) -> Vec<u8> {
    let (mut bytes, _) = to_damage(random);
    let (inputs, outputs) = (bytes[5] as usize, bytes[6] as usize);
    let stream = random.below(inputs + outputs);
    // Input records have two bytes, output records three; the type is the second of either.
    let later_output = stream.saturating_sub(inputs);
    let place = 3 + 4 + 2 * stream + later_output + 1;
    bytes[place] = (bytes[place] + 1 + random.below(2) as u8) % 3;
    bytes
}

/// The table cut, with or without its length put right; rows follow or not.
fn shortened(random: &mut Random) -> Vec<u8> {
    let (mut bytes, length) = to_damage(random);
    let shorter = random.below(length);
    bytes.drain(3 + shorter..3 + length);
    if random.once_in(2) {
        bytes.truncate(3 + shorter);
    }
    if !random.once_in(3) {
        bytes[1..3].copy_from_slice(&(shorter as u16).to_le_bytes());
    }
    bytes
}

/// Bytes after the last expression.
fn extended(random: &mut Random) -> Vec<u8> {
    let (mut bytes, length) = to_damage(random);
    let longer = length + 1 + random.below(20);
    for place in length..longer {
        bytes.insert(3 + place, random.pick(&[0x00, 0x04, 0x10, 0x13, 0xFF]));
    }
    bytes[1..3].copy_from_slice(&(longer as u16).to_le_bytes());
    bytes
}

/// A wrong first byte, a length out of its limits or beyond the data, or no more than a head.
fn head(random: &mut Random) -> Vec<u8> {
    let (mut bytes, length) = to_damage(random);
    let mut put_length = |length: usize| {
        bytes[1..3].copy_from_slice(&(length as u16).to_le_bytes());
    };
    match random.below(6) {
        0 => bytes[0] = random.pick(&[0x00, 0x01, 0x50, 0x61, 0xFF]),
        1 => put_length(0),
        2 => put_length(random.pick(&[4097, 4098, 0x1100, 0x8000, 0xFFFF])),
        3 => put_length(random.between(length as i64 + 1, 4096) as usize),
        4 => put_length(4096),
        _ => bytes.truncate(random.below(4)),
    }
    if bytes.first() != Some(&0x60) {
        bytes.truncate(1 + random.below(bytes.len().max(1)));
    }
    bytes
}

/// An input that stops anywhere, mostly inside a row.
fn stopped(random: &mut Random) -> Vec<u8> {
    let plan = small_plan(random);
    let mut bytes = after(random, &plan, 8);
    let last = bytes.len() - random.below(bytes.len().min(40));
    bytes.truncate(last);
    bytes
}

/// Mostly flag inputs, and a spoilt row in every second.
fn bad_flags(random: &mut Random) -> Vec<u8> {
    let mut plan = small_plan(random);
    plan.input_types = &[FLAG, FLAG, LEVEL];
    let made = table(random, &plan);
    let count = 3 + random.below(12);
    let rows = rows(random, &made, count, 2);
    whole(&made.bytes, &rows)
}

/// Hundreds of rows, so that every part of the store goes round many times.
fn many_rows(random: &mut Random) -> Vec<u8> {
    let plan = small_plan(random);
    let made = table(random, &plan);
    let count = 200 + random.below(600);
    let rows = rows(random, &made, count, 50);
    whole(&made.bytes, &rows)
}

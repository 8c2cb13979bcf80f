//! The evaluation model over a whole trace: source 004, definitions 5 and 6, by recursion with a
//! memo. Assumes an accepted table, so that the recursion ends, and rows of I words each.

use crate::table::{one_nan, Node, Table, Type};

pub struct Model<'a> {
    table: &'a Table,
    /// The input streams' values, by position and stream, NaN already made the single one.
    rows: Vec<Vec<u32>>,
    /// The outputs' values that are known, by output and position.
    known: Vec<Vec<Option<u32>>>,
}

impl<'a> Model<'a> {
    /// The model of these accepted rows; N is their number.
    pub fn new(table: &'a Table, rows: &[Vec<u32>]) -> Model<'a> {
        let rows: Vec<Vec<u32>> = rows.iter().map(|row| read_row(table, row)).collect();
        let known = vec![vec![None; rows.len()]; table.equations.len()];
        Model { table, rows, known }
    }

    /// N.
    pub fn length(&self) -> usize {
        self.rows.len()
    }

    /// The image of this stream's value at this position, which lies in the trace.
    pub fn value(&mut self, stream: usize, position: usize) -> u32 {
        if stream < self.table.inputs {
            return self.rows[position][stream];
        }
        let output = stream - self.table.inputs;
        if let Some(value) = self.known[output][position] {
            return value;
        }
        let table = self.table;
        let value = self.valuation(&table.equations[output], position);
        self.known[output][position] = Some(value);
        value
    }

    /// Definition 5, case by case.
    fn valuation(&mut self, node: &Node, position: usize) -> u32 {
        match node {
            Node::Constant(image) => *image,
            Node::Now(stream) => self.value(*stream, position),
            Node::At { stream, offset, default } => {
                let there = position as i64 + offset;
                if there < 0 || there >= self.length() as i64 {
                    *default
                } else {
                    self.value(*stream, there as usize)
                }
            }
            Node::Operator { kind: 0x23, operands } => {
                let chosen = if self.valuation(&operands[0], position) != 0 { 1 } else { 2 };
                self.valuation(&operands[chosen], position)
            }
            Node::Operator { kind: 0x20, operands } => {
                flag(self.valuation(&operands[0], position) == 0)
            }
            Node::Operator { kind, operands } => {
                let a = self.valuation(&operands[0], position);
                let b = self.valuation(&operands[1], position);
                apply(*kind, a, b)
            }
        }
    }
}

/// A row's words as values: only a level's NaN is changed by the reading.
fn read_row(table: &Table, row: &[u32]) -> Vec<u32> {
    let types = &table.types;
    row.iter()
        .enumerate()
        .map(|(stream, &word)| if types[stream] == Type::Level { one_nan(word) } else { word })
        .collect()
}

fn flag(holds: bool) -> u32 {
    holds as u32
}

/// The operators of two operands, on the operands' images.
fn apply(kind: u8, a: u32, b: u32) -> u32 {
    let level_a = f32::from_bits(a);
    let level_b = f32::from_bits(b);
    match kind {
        0x21 => flag(a != 0 && b != 0),
        0x22 => flag(a != 0 || b != 0),
        0x24 => a.wrapping_add(b),
        0x25 => a.wrapping_sub(b),
        // "word a is ahead of b when (a-b) mod 2^32 is 1 to 2^31-1"
        0x26 => flag((1..=0x7FFF_FFFF).contains(&a.wrapping_sub(b))),
        0x27 => flag(a < b),
        // Equal of words, of flags, and of levels: "all 32 bits equal".
        0x28 | 0x29 | 0x2A => flag(a == b),
        0x2B => one_nan((level_a + level_b).to_bits()),
        0x2C => one_nan((level_a - level_b).to_bits()),
        0x2D => one_nan((level_a * level_b).to_bits()),
        0x2E => one_nan((level_a / level_b).to_bits()),
        // IEEE's less is false where either is NaN.
        0x2F => flag(level_a < level_b),
        _ => unreachable!("not an operator of two operands"),
    }
}

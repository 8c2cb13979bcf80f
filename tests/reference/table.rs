//! The scan of a table: document 01, "The table" and "Refusal numbers" 1 to 6 and 9.
//! Assumes nothing of the bytes.

/// "types are 0 flag, 1 word, 2 level".
#[derive(Clone, Copy, PartialEq, Eq, Debug)]
pub enum Type {
    Flag,
    Word,
    Level,
}

/// A refusal's number and place.
#[derive(Clone, Copy, PartialEq, Eq, Debug)]
pub struct Refusal {
    pub number: u32,
    pub place: usize,
}

/// "An expression node is a constant, a reference to a stream, or an operator whose operands
/// follow it in order." Values are 32-bit images; a level's NaN is already 7FC00000.
#[derive(Debug)]
pub enum Node {
    Constant(u32),
    Now(usize),
    At { stream: usize, offset: i64, default: u32 },
    Operator { kind: u8, operands: Vec<Node> },
}

/// A scanned table. `types` has S entries; `triggers` and `equations` have one entry for each
/// output, the first for stream I.
#[derive(Debug)]
pub struct Table {
    pub inputs: usize,
    pub types: Vec<Type>,
    pub triggers: Vec<bool>,
    pub equations: Vec<Node>,
}

impl Table {
    /// S = I + O.
    pub fn streams(&self) -> usize {
        self.types.len()
    }
}

pub const LONGEST_TABLE: usize = 4096;
const MOST_STREAMS: usize = 32;
const MOST_LEVELS: usize = 16;

/// "Any NaN pattern (exponent bits all ones, fraction not zero) ... is read as 7FC00000."
pub fn one_nan(bits: u32) -> u32 {
    let exponent_all_ones = (bits >> 23) & 0xFF == 0xFF;
    let fraction = bits & 0x007F_FFFF;
    if exponent_all_ones && fraction != 0 {
        0x7FC0_0000
    } else {
        bits
    }
}

/// Scans a whole table front to back and stops at the first fault.
/// "Order: one 01; I of 02; O of 03; O of 04 in stream order, each with its expression."
pub fn scan(bytes: &[u8]) -> Result<Table, Refusal> {
    if bytes.is_empty() || bytes.len() > LONGEST_TABLE {
        return Err(Refusal { number: 1, place: 0 });
    }
    let mut scanner = Scanner { bytes, offset: 0, types: Vec::new() };
    let (inputs, outputs) = scanner.edition()?;
    for _ in 0..inputs {
        scanner.input()?;
    }
    let mut triggers = Vec::new();
    for _ in 0..outputs {
        triggers.push(scanner.output()?);
    }
    let mut equations = Vec::new();
    for stream in inputs..inputs + outputs {
        equations.push(scanner.equation(stream)?);
    }
    if scanner.offset < bytes.len() {
        return Err(Refusal { number: 9, place: scanner.offset });
    }
    Ok(Table { inputs, types: scanner.types, triggers, equations })
}

/// One record: its offset, its kind and the body whose length the kind fixes.
struct Record<'a> {
    place: usize,
    kind: u8,
    body: &'a [u8],
}

impl Record<'_> {
    fn refuse<T>(&self, number: u32) -> Result<T, Refusal> {
        Err(Refusal { number, place: self.place })
    }

    /// "Numbers are little-endian."
    fn word(&self, at: usize) -> u32 {
        let b = self.body;
        u32::from_le_bytes([b[at], b[at + 1], b[at + 2], b[at + 3]])
    }
}

/// The column "Body".
fn body_length(kind: u8) -> usize {
    match kind {
        0x01 => 3,
        0x02 | 0x04 | 0x10 | 0x13 => 1,
        0x03 => 2,
        0x11 | 0x12 => 4,
        0x14 => 6,
        _ => 0,
    }
}

/// The kinds that may stand in an expression.
fn is_node(kind: u8) -> bool {
    matches!(kind, 0x10..=0x14 | 0x20..=0x2F)
}

fn type_of_number(number: u8) -> Option<Type> {
    match number {
        0 => Some(Type::Flag),
        1 => Some(Type::Word),
        2 => Some(Type::Level),
        _ => None,
    }
}

/// Operand types and result type of an operator, from the table's column "Meaning"; `wanted` is
/// needed for the if only ("both of the wanted type").
fn signature(kind: u8, wanted: Type) -> (Vec<Type>, Type) {
    use Type::*;
    match kind {
        0x20 => (vec![Flag], Flag),
        0x21 | 0x22 => (vec![Flag, Flag], Flag),
        0x23 => (vec![Flag, wanted, wanted], wanted),
        0x24 | 0x25 => (vec![Word, Word], Word),
        0x26 | 0x27 | 0x28 => (vec![Word, Word], Flag),
        0x29 => (vec![Flag, Flag], Flag),
        0x2A | 0x2F => (vec![Level, Level], Flag),
        0x2B..=0x2E => (vec![Level, Level], Level),
        _ => unreachable!("not an operator"),
    }
}

struct Scanner<'a> {
    bytes: &'a [u8],
    offset: usize,
    /// The types of the streams declared so far; all S of them before the first equation.
    types: Vec<Type>,
}

impl<'a> Scanner<'a> {
    /// The next record, with the first three tests of a record: "missing kind byte (2), 3, missing
    /// body (2)".
    fn next(&mut self, allowed: fn(u8) -> bool) -> Result<Record<'a>, Refusal> {
        let place = self.offset;
        let Some(&kind) = self.bytes.get(place) else {
            return Err(Refusal { number: 2, place });
        };
        if !allowed(kind) {
            return Err(Refusal { number: 3, place });
        }
        let end = place + 1 + body_length(kind);
        let Some(body) = self.bytes.get(place + 1..end) else {
            return Err(Refusal { number: 2, place });
        };
        self.offset = end;
        Ok(Record { place, kind, body })
    }

    /// Record 01: edition, I, O. "I and O at least 1; S at most 32".
    fn edition(&mut self) -> Result<(usize, usize), Refusal> {
        let record = self.next(|kind| kind == 0x01)?;
        let inputs = record.body[1] as usize;
        let outputs = record.body[2] as usize;
        let edition_is_one = record.body[0] == 1;
        if !edition_is_one || inputs < 1 || outputs < 1 || inputs + outputs > MOST_STREAMS {
            return record.refuse(4);
        }
        Ok((inputs, outputs))
    }

    /// Record 02: type.
    fn input(&mut self) -> Result<(), Refusal> {
        let record = self.next(|kind| kind == 0x02)?;
        match type_of_number(record.body[0]) {
            None => record.refuse(4),
            Some(own) => {
                self.types.push(own);
                Ok(())
            }
        }
    }

    /// Record 03: type, role; whether the output is a trigger. A trigger must be of type flag.
    fn output(&mut self) -> Result<bool, Refusal> {
        let record = self.next(|kind| kind == 0x03)?;
        let Some(own) = type_of_number(record.body[0]) else {
            return record.refuse(4);
        };
        let role = record.body[1];
        if role > 1 || (role == 1 && own != Type::Flag) {
            return record.refuse(4);
        }
        self.types.push(own);
        Ok(role == 1)
    }

    /// Record 04 of the stream that is due, and its expression: "The outermost node is level 1."
    fn equation(&mut self, stream: usize) -> Result<Node, Refusal> {
        let record = self.next(|kind| kind == 0x04)?;
        if record.body[0] as usize != stream {
            return record.refuse(4);
        }
        self.expression(self.types[stream], 1)
    }

    /// One node with its operands. The record's own tests come first, in the order 2, 3, 2 (by
    /// `next`), 6, 4, 5; the operands follow it.
    fn expression(&mut self, wanted: Type, level: usize) -> Result<Node, Refusal> {
        let record = self.next(is_node)?;
        if level > MOST_LEVELS {
            return record.refuse(6);
        }
        match record.kind {
            0x10..=0x12 => self.constant(&record, wanted),
            0x13 | 0x14 => self.reference(&record, wanted),
            _ => self.operator(&record, wanted, level),
        }
    }

    fn constant(&self, record: &Record, wanted: Type) -> Result<Node, Refusal> {
        let (own, image) = match record.kind {
            0x10 => (Type::Flag, record.body[0] as u32),
            0x11 => (Type::Word, record.word(0)),
            _ => (Type::Level, one_nan(record.word(0))),
        };
        if own == Type::Flag && image > 1 {
            return record.refuse(4);
        }
        if own != wanted {
            return record.refuse(5);
        }
        Ok(Node::Constant(image))
    }

    /// now and at. The default of an at is of its stream's type (source 004, definition 1).
    fn reference(&self, record: &Record, wanted: Type) -> Result<Node, Refusal> {
        let stream = record.body[0] as usize;
        let Some(&own) = self.types.get(stream) else {
            return record.refuse(4);
        };
        let mut node = Node::Now(stream);
        if record.kind == 0x14 {
            let offset = record.body[1] as i8 as i64;
            let mut default = record.word(2);
            if offset == 0 || (own == Type::Flag && default > 1) {
                return record.refuse(4);
            }
            if own == Type::Level {
                default = one_nan(default);
            }
            node = Node::At { stream, offset, default };
        }
        if own != wanted {
            return record.refuse(5);
        }
        Ok(node)
    }

    fn operator(&mut self, record: &Record, wanted: Type, level: usize) -> Result<Node, Refusal> {
        let (operand_types, result) = signature(record.kind, wanted);
        if result != wanted {
            return record.refuse(5);
        }
        let mut operands = Vec::new();
        for operand_type in operand_types {
            operands.push(self.expression(operand_type, level + 1)?);
        }
        Ok(Node::Operator { kind: record.kind, operands })
    }
}

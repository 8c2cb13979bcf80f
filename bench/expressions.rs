//! A builder of tables: each function gives the bytes of one node with its operands, or of a whole
//! table (document 01, "The table").

use crate::check::FLAG;

pub type Expression = Vec<u8>;

/// An output: type, role and equation.
pub struct Equation {
    pub own: u8,
    pub trigger: bool,
    pub expression: Expression,
}

pub fn plain(own: u8, expression: Expression) -> Equation {
    Equation { own, trigger: false, expression }
}

pub fn trigger(expression: Expression) -> Equation {
    Equation { own: FLAG, trigger: true, expression }
}

/// "Order: one 01; I of 02; O of 03; O of 04 in stream order, each with its expression."
pub fn table(inputs: &[u8], outputs: &[Equation]) -> Vec<u8> {
    let mut bytes = vec![0x01, 1, inputs.len() as u8, outputs.len() as u8];
    for &own in inputs {
        bytes.extend([0x02, own]);
    }
    for output in outputs {
        bytes.extend([0x03, output.own, output.trigger as u8]);
    }
    for (i, output) in outputs.iter().enumerate() {
        bytes.extend([0x04, (inputs.len() + i) as u8]);
        bytes.extend(&output.expression);
    }
    bytes
}

pub fn word(value: u32) -> Expression {
    [&[0x11][..], &value.to_le_bytes()].concat()
}

pub fn level(value: f32) -> Expression {
    [&[0x12][..], &value.to_bits().to_le_bytes()].concat()
}

pub fn now(stream: u8) -> Expression {
    vec![0x13, stream]
}

/// The default is given by its 32-bit image.
pub fn at(stream: u8, offset: i8, default: u32) -> Expression {
    [&[0x14, stream, offset as u8][..], &default.to_le_bytes()].concat()
}

pub fn not(a: Expression) -> Expression {
    [vec![0x20], a].concat()
}

/// The if.
pub fn choose(a: Expression, b: Expression, c: Expression) -> Expression {
    [vec![0x23], a, b, c].concat()
}

fn two(kind: u8, a: Expression, b: Expression) -> Expression {
    [vec![kind], a, b].concat()
}

macro_rules! operators {
    ($($name:ident = $kind:literal;)*) => {
        $(pub fn $name(a: Expression, b: Expression) -> Expression {
            two($kind, a, b)
        })*
    };
}

operators! {
    and = 0x21;
    or = 0x22;
    add = 0x24;
    sub = 0x25;
    ahead = 0x26;
    less = 0x27;
    equal_flags = 0x29;
    add_levels = 0x2B;
    sub_levels = 0x2C;
    mul_levels = 0x2D;
    less_levels = 0x2F;
}

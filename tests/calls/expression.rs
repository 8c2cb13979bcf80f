//! Document 01's expressions at one position, by the type that is wanted. Assumes a scanned table,
//! so that every node is of the wanted type.

use reference::table::{one_nan, Node, Type};

/// The word that holds stream v at the present position plus k, or nothing outside of the trace.
pub type Read<'a> = &'a mut dyn FnMut(usize, i64) -> Option<u32>;

/// The 32-bit image of this expression's value.
pub fn image(own: Type, node: &Node, read: Read) -> u32 {
    match own {
        Type::Flag => flag(node, read) as u32,
        Type::Word => word(node, read),
        Type::Level => level(node, read).to_bits(),
    }
}

/// A row's word as a value's image; a flag word above 1 was refused before.
pub fn image_of_word(own: Type, word: u32) -> u32 {
    image(own, &Node::Constant(word), &mut |_, _| None)
}

fn flag(node: &Node, read: Read) -> bool {
    let Node::Operator { kind, operands } = node else {
        // "A store word read as a flag is true exactly when it isn't 0."
        return leaf(node, read) != 0;
    };
    let (a, b) = (&operands[0], &operands[operands.len() - 1]);
    match kind {
        0x20 => !flag(a, read),
        0x21 => flag(a, read) & flag(b, read),
        0x22 => flag(a, read) | flag(b, read),
        0x23 => flag(chosen(operands, read), read),
        // "word a is ahead of b when (a-b) mod 2^32 is 1 to 2^31-1"
        0x26 => word(a, read).wrapping_sub(word(b, read)) as i32 > 0,
        0x27 => word(a, read) < word(b, read),
        0x28 => word(a, read) == word(b, read),
        0x29 => flag(a, read) == flag(b, read),
        0x2A => level(a, read).to_bits() == level(b, read).to_bits(),
        0x2F => level(a, read) < level(b, read),
        _ => unreachable!("not an operator that gives a flag"),
    }
}

fn word(node: &Node, read: Read) -> u32 {
    let Node::Operator { kind, operands } = node else {
        return leaf(node, read);
    };
    let (a, b) = (&operands[0], &operands[1]);
    match kind {
        0x23 => word(chosen(operands, read), read),
        0x24 => word(a, read).wrapping_add(word(b, read)),
        0x25 => word(a, read).wrapping_sub(word(b, read)),
        _ => unreachable!("not an operator that gives a word"),
    }
}

/// "Any NaN pattern ... in a table, row, store or result is read as 7FC00000."
fn level(node: &Node, read: Read) -> f32 {
    let Node::Operator { kind, operands } = node else {
        return f32::from_bits(one_nan(leaf(node, read)));
    };
    let (a, b) = (&operands[0], &operands[1]);
    let result = match kind {
        0x23 => level(chosen(operands, read), read),
        0x2B => level(a, read) + level(b, read),
        0x2C => level(a, read) - level(b, read),
        0x2D => level(a, read) * level(b, read),
        0x2E => level(a, read) / level(b, read),
        _ => unreachable!("not an operator that gives a level"),
    };
    f32::from_bits(one_nan(result.to_bits()))
}

/// The branch of an if that its flag chooses.
fn chosen<'n>(operands: &'n [Node], read: Read) -> &'n Node {
    if flag(&operands[0], read) {
        &operands[1]
    } else {
        &operands[2]
    }
}

/// The word behind a constant or a reference. A stream's present position lies in the trace.
fn leaf(node: &Node, read: Read) -> u32 {
    match node {
        Node::Constant(word) => *word,
        Node::Now(stream) => read(*stream, 0).expect("now lies in the trace"),
        Node::At { stream, offset, default } => read(*stream, *offset).unwrap_or(*default),
        Node::Operator { .. } => unreachable!("an operator is no leaf"),
    }
}

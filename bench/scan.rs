//! The scan of a table, front to back (document 01, refusals 2 to 6 and 9).

use crate::check::{body_length, Checked, FLAG, LEVEL, WORD};
use crate::edges::{Edge, Edges};
use crate::output::{TRIGGER, VALUE};
use crate::{Refusal, MOST_STREAMS};

const MOST_LEVELS: u8 = 16;

/// What the table says, and its edges.
pub fn scan(bytes: &[u8], checked: &mut Checked, edges: &mut Edges) -> Result<(), Refusal> {
    let mut scanner = Scanner { bytes, offset: 0, types: [0; MOST_STREAMS], streams: 0, edges };
    scanner.heading(checked)?;
    scanner.equations(checked)
}

struct Scanner<'a> {
    bytes: &'a [u8],
    offset: usize,
    types: [u8; MOST_STREAMS],
    streams: usize,
    edges: &'a mut Edges,
}

fn refuse(number: u8, place: usize) -> Result<(), Refusal> {
    Err(Refusal { number, place: place as u16 })
}

impl<'a> Scanner<'a> {
    /// The body of the next record, which must be of this kind; with the first tests of a record:
    /// "missing kind byte (2), 3, missing body (2)".
    fn next<const BODY: usize>(&mut self, kind: u8) -> Result<&'a [u8; BODY], Refusal> {
        let place = self.offset as u16;
        match self.bytes[self.offset..].split_first() {
            None => Err(Refusal { number: 2, place }),
            Some((&first, _)) if first != kind => Err(Refusal { number: 3, place }),
            Some((_, rest)) => {
                let body = rest.first_chunk().ok_or(Refusal { number: 2, place })?;
                self.offset += 1 + BODY;
                Ok(body)
            }
        }
    }

    /// The heading: "one 01; I of 02; O of 03".
    fn heading(&mut self, checked: &mut Checked) -> Result<(), Refusal> {
        let &[edition, inputs, outputs] = self.next(0x01)?;
        let (inputs, streams) = (inputs as usize, inputs as usize + outputs as usize);
        if edition != 1 || inputs == 0 || outputs == 0 || streams > MOST_STREAMS {
            return refuse(4, 0);
        }
        for stream in 0..inputs {
            let place = self.offset;
            let &[own] = self.next(0x02)?;
            if own > LEVEL {
                return refuse(4, place);
            }
            self.types[stream] = own;
        }
        for stream in inputs..streams {
            let place = self.offset;
            let &[own, role] = self.next(0x03)?;
            if own > LEVEL || role > 1 || role == 1 && own != FLAG {
                return refuse(4, place);
            }
            self.types[stream] = own;
            checked.triggers[stream] = role == 1;
            checked.room += VALUE + role as usize * TRIGGER;
        }
        checked.inputs = inputs;
        checked.streams = streams;
        checked.types = self.types;
        self.streams = streams;
        Ok(())
    }

    /// "O of 04 in stream order, each with its expression", and nothing behind them.
    fn equations(&mut self, checked: &mut Checked) -> Result<(), Refusal> {
        for stream in checked.inputs..checked.streams {
            let place = self.offset;
            let &[own] = self.next(0x04)?;
            if own as usize != stream {
                return refuse(4, place);
            }
            checked.starts[stream] = self.offset as u16;
            self.expression(own, self.types[stream])?;
        }
        if self.offset < self.bytes.len() {
            return refuse(9, self.offset);
        }
        Ok(())
    }

    /// One expression. `pending` has type and level of the nodes that are still wanted, the next
    /// one last: two of each level at most, besides the outermost.
    fn expression(&mut self, from: u8, wanted: u8) -> Result<(), Refusal> {
        let mut pending = [(0, 0); 2 * MOST_LEVELS as usize + 4];
        pending[0] = (wanted, 1);
        let mut left = 1;
        while left > 0 {
            left -= 1;
            let (wanted, level) = pending[left];
            let rule = self.node(from, wanted, level)?;
            if rule.branches {
                pending[left..left + 2].fill((wanted, level + 1));
                left += 2;
            }
            // Two are written in any case, which is faster than to ask how many count.
            pending[left..left + 2].fill((rule.operand, level + 1));
            left += rule.operands as usize;
        }
        Ok(())
    }

    /// One node: "missing kind byte (2), 3, missing body (2), 6, 4, 5".
    fn node(&mut self, from: u8, wanted: u8, level: u8) -> Result<Rule, Refusal> {
        let place = self.offset;
        let refusal = |number| Err(Refusal { number, place: place as u16 });
        let Some(&kind) = self.bytes.get(place) else {
            return refusal(2);
        };
        let Some(&Some(rule)) = RULES.get(kind as usize) else {
            return refusal(3);
        };
        self.offset += 1 + body_length(kind);
        let Some(body) = self.bytes.get(place + 1..self.offset) else {
            return refusal(2);
        };
        if level > MOST_LEVELS {
            return refusal(6);
        }
        let own = match kind {
            0x13 | 0x14 => self.reference(body, from),
            0x10 if body[0] > 1 => None,
            0x23 => Some(wanted),
            _ => Some(rule.result),
        };
        match own {
            None => refusal(4),
            Some(own) if own != wanted => refusal(5),
            _ => Ok(rule),
        }
    }

    /// The type of the stream that is read, and an edge to it; nothing if a field is out of its
    /// rule.
    fn reference(&mut self, body: &[u8], from: u8) -> Option<u8> {
        let to = body[0];
        let own = *self.types[..self.streams].get(to as usize)?;
        let mut weight = 0;
        if let &[_, offset, a, b, c, d] = body {
            weight = offset as i8;
            if weight == 0 || own == FLAG && u32::from_le_bytes([a, b, c, d]) > 1 {
                return None;
            }
        }
        self.edges.push(Edge { from, to, weight });
        Some(own)
    }
}

/// What the table of kinds says of a node's operands: first so many of a type, then the branches
/// of an if, which are of the wanted type. The result of an if or a reference isn't the kind's to
/// say.
#[derive(Clone, Copy)]
struct Rule {
    operands: u8,
    operand: u8,
    branches: bool,
    result: u8,
}

const RULES: [Option<Rule>; 0x30] = {
    let mut rules = [None; 0x30];
    let mut kind = 0x10;
    while kind < 0x30 {
        rules[kind] = rule(kind as u8);
        kind += 1;
    }
    rules
};

const fn rule(kind: u8) -> Option<Rule> {
    let (operands, operand, branches, result) = match kind {
        0x10 | 0x13 | 0x14 => (0, FLAG, false, FLAG),
        0x11 => (0, FLAG, false, WORD),
        0x12 => (0, FLAG, false, LEVEL),
        0x20 => (1, FLAG, false, FLAG),
        0x21 | 0x22 | 0x29 => (2, FLAG, false, FLAG),
        0x23 => (1, FLAG, true, FLAG),
        0x24 | 0x25 => (2, WORD, false, WORD),
        0x26..=0x28 => (2, WORD, false, FLAG),
        0x2A | 0x2F => (2, LEVEL, false, FLAG),
        0x2B..=0x2E => (2, LEVEL, false, LEVEL),
        _ => return None,
    };
    Some(Rule { operands, operand, branches, result })
}

//! The baseline with less work: the table is tested once and made into a tree; rows run over the
//! tree alone. The store is the run's own, so what lies in it needs no test either.

use crate::check::{body_length, check, one_nan, word_at, Checked, FLAG, LEVEL};
use crate::output::Output;
use crate::value::apply;
use crate::{demand, Calls, Record, Refusal, Told, DRAINING, OVER, READING};

/// Where a stream's values lie in the store.
#[derive(Clone, Copy)]
struct Ring {
    start: u32,
    kept: u32,
}

enum Node {
    Constant(u32),
    Now(Ring),
    At { ring: Ring, offset: i64, default: u32 },
    Not(Box<Node>),
    If(Box<[Node; 3]>),
    Two(u8, Box<[Node; 2]>),
}

/// What is kept of an accepted table.
pub struct Plan {
    checked: Checked,
    rings: Vec<Ring>,
    /// The outputs' equations, the first for stream I.
    equations: Vec<Node>,
}

pub struct Once;

impl Calls for Once {
    type Table = Plan;

    fn read(bytes: &[u8]) -> Result<Plan, Refusal> {
        let mut checked = Checked::default();
        check(bytes, &mut checked)?;
        let ring = |stream: usize| Ring {
            start: checked.parts[stream] as u32,
            kept: checked.kept[stream] as u32,
        };
        let rings: Vec<Ring> = (0..checked.streams).map(ring).collect();
        let tree = |stream: usize| {
            let mut at = checked.starts[stream] as usize;
            node_at(bytes, &checked.types, &rings, &mut at)
        };
        let equations = (checked.inputs..checked.streams).map(tree).collect();
        Ok(Plan { checked, rings, equations })
    }

    fn open(record: &mut Record, plan: &Plan, store: &mut [u32]) -> Told {
        *record = Record::default();
        demand(store.len() >= plan.checked.words, 11)?;
        store[..plan.checked.words].fill(0);
        record.look = plan.checked.look;
        record.kept = plan.checked.kept;
        Ok(0)
    }

    fn row(
        record: &mut Record,
        plan: &Plan,
        store: &mut [u32],
        row: &[u32],
        out: &mut [u8],
    ) -> Told {
        let checked = &plan.checked;
        demand(store.len() >= checked.words, 11)?;
        demand(record.phase == READING, 12)?;
        demand(record.rows < u32::MAX, 13)?;
        demand(row.len() == checked.inputs, 14)?;
        for (stream, &word) in row.iter().enumerate() {
            if checked.types[stream] == FLAG && word > 1 {
                return Err(Refusal { number: 15, place: stream as u16 });
            }
        }
        demand(out.len() >= checked.room, 16)?;
        let turn = record.rows as i64;
        record.rows += 1;
        let mut turn = Turn { plan, store, known: turn + 1, turn };
        for (stream, &word) in row.iter().enumerate() {
            if let Some(position) = turn.due(stream) {
                let level = checked.types[stream] == LEVEL;
                turn.put(stream, position, if level { one_nan(word) } else { word });
            }
        }
        Ok(turn.run(out))
    }

    fn close(record: &mut Record, plan: &Plan) -> Told {
        demand(record.phase == READING, 12)?;
        let over = record.rows == 0 || plan.checked.closing == 0;
        record.phase = if over { OVER } else { DRAINING };
        Ok(0)
    }

    fn drain(record: &mut Record, plan: &Plan, store: &mut [u32], out: &mut [u8]) -> Told {
        demand(store.len() >= plan.checked.words, 11)?;
        demand(record.phase == DRAINING, 12)?;
        demand(out.len() >= plan.checked.room, 16)?;
        let known = record.rows as i64;
        let turn = known + record.done as i64;
        record.done += 1;
        if record.done == plan.checked.closing {
            record.phase = OVER;
        }
        Ok(Turn { plan, store, known, turn }.run(out))
    }
}

/// A turn, with all that it reads: the plan, the rows known, and the store.
struct Turn<'a> {
    plan: &'a Plan,
    store: &'a mut [u32],
    known: i64,
    turn: i64,
}

impl Turn<'_> {
    fn place(ring: Ring, position: i64) -> usize {
        (ring.start + position as u32 % ring.kept) as usize
    }

    fn put(&mut self, stream: usize, position: i64, value: u32) {
        self.store[Self::place(self.plan.rings[stream], position)] = value;
    }

    /// The position that this turn gives of this stream, where it lies in the trace.
    fn due(&self, stream: usize) -> Option<i64> {
        let position = self.turn - self.plan.checked.look[stream] as i64;
        (0..self.known).contains(&position).then_some(position)
    }

    /// The bytes written.
    fn run(&mut self, out: &mut [u8]) -> usize {
        let Plan { checked, rings, equations } = self.plan;
        for &stream in &checked.order[..equations.len()] {
            let stream = stream as usize;
            if let Some(position) = self.due(stream) {
                let value = self.value(&equations[stream - checked.inputs], position);
                self.put(stream, position, value);
            }
        }
        let mut out = Output::new(out);
        for stream in checked.inputs..checked.streams {
            if let Some(position) = self.due(stream) {
                let value = self.store[Self::place(rings[stream], position)];
                out.put(stream, position as u32, value, checked.triggers[stream]);
            }
        }
        out.count()
    }

    fn value(&self, node: &Node, position: i64) -> u32 {
        match node {
            Node::Constant(image) => *image,
            Node::Now(ring) => self.store[Self::place(*ring, position)],
            Node::At { ring, offset, default } => {
                let there = position + offset;
                if (0..self.known).contains(&there) {
                    self.store[Self::place(*ring, there)]
                } else {
                    *default
                }
            }
            Node::Not(operand) => (self.value(operand, position) == 0) as u32,
            Node::If(operands) => {
                let chosen = if self.value(&operands[0], position) != 0 { 1 } else { 2 };
                self.value(&operands[chosen], position)
            }
            Node::Two(kind, operands) => {
                let a = self.value(&operands[0], position);
                let b = self.value(&operands[1], position);
                apply(*kind, a, b)
            }
        }
    }
}

/// The tree of the expression at this place of an accepted table; the place moves behind it.
fn node_at(table: &[u8], types: &[u8], rings: &[Ring], at: &mut usize) -> Node {
    let kind = table[*at];
    let body = *at + 1;
    *at = body + body_length(kind);
    let mut operand = || node_at(table, types, rings, at);
    match kind {
        0x10 => Node::Constant(table[body] as u32),
        0x11 => Node::Constant(word_at(table, body)),
        0x12 => Node::Constant(one_nan(word_at(table, body))),
        0x13 => Node::Now(rings[table[body] as usize]),
        0x14 => {
            let stream = table[body] as usize;
            let word = word_at(table, body + 2);
            let default = if types[stream] == LEVEL { one_nan(word) } else { word };
            Node::At { ring: rings[stream], offset: table[body + 1] as i8 as i64, default }
        }
        0x20 => Node::Not(Box::new(operand())),
        0x23 => Node::If(Box::new([operand(), operand(), operand()])),
        _ => Node::Two(kind, Box::new([operand(), operand()])),
    }
}

//! Random tables, in document 01's records. Most of them are accepted: an edge from y to v of
//! weight k is written only if it goes down from y's height to v's, or stays level and leads to a
//! lower rank, so that every loop's total is below 0.

use crate::random::Random;

pub const FLAG: u8 = 0;
pub const WORD: u8 = 1;
pub const LEVEL: u8 = 2;

/// The bytes that are set aside for an operand: a word constant fits.
const SMALLEST: usize = 5;

/// What a random table is to be like.
pub struct Plan {
    pub inputs: usize,
    pub outputs: usize,
    /// The types that an input may have.
    pub input_types: &'static [u8],
    /// The largest offset, on either side of 0.
    pub reach: i64,
    /// The largest height of a stream; 0 puts all streams into the same turn.
    pub spread: i64,
    /// How many bytes an expression may take (a leaf may take a few more).
    pub bytes: usize,
    /// How many levels an expression may have.
    pub levels: usize,
    /// Expressions go as deep as they can.
    pub deep: bool,
    /// References are written whether they make a loop or not.
    pub lawless: bool,
}

/// A table with what is needed to write rows for it.
pub struct Made {
    pub bytes: Vec<u8>,
    pub input_types: Vec<u8>,
}

/// A random table after this plan.
pub fn table(random: &mut Random, plan: &Plan) -> Made {
    let mut writer = Writer::new(random, plan);
    let equations = (plan.inputs..plan.inputs + plan.outputs)
        .map(|stream| {
            let wanted = writer.types[stream];
            writer.expression(stream, wanted, plan.bytes, plan.levels)
        })
        .collect();
    writer.made(equations)
}

/// A random table of exactly this many bytes; its last output is a flag that fills it up.
pub fn table_of_length(random: &mut Random, plan: &Plan, length: usize) -> Made {
    let mut writer = Writer::new(random, plan);
    let last = plan.inputs + plan.outputs - 1;
    writer.types[last] = FLAG;
    let mut equations: Vec<Vec<u8>> = (plan.inputs..last)
        .map(|stream| {
            let wanted = writer.types[stream];
            writer.expression(stream, wanted, plan.bytes, plan.levels)
        })
        .collect();
    let heading = 4 + 2 * plan.inputs + 3 * plan.outputs;
    let others: usize = equations.iter().map(|expression| 2 + expression.len()).sum();
    equations.push(writer.filler(last, length - heading - others - 2));
    writer.made(equations)
}

struct Writer<'a> {
    random: &'a mut Random,
    plan: &'a Plan,
    types: Vec<u8>,
    height: Vec<i64>,
    rank: Vec<i64>,
}

impl<'a> Writer<'a> {
    fn new(random: &'a mut Random, plan: &'a Plan) -> Writer<'a> {
        let streams = plan.inputs + plan.outputs;
        let types = (0..streams)
            .map(|stream| match stream < plan.inputs {
                true => random.pick(plan.input_types),
                false => random.pick(&[FLAG, WORD, LEVEL]),
            })
            .collect();
        let height = (0..streams).map(|_| random.between(0, plan.spread)).collect();
        // Ranks against stream order half of the time, else in any order.
        let against = random.once_in(2);
        let rank = (0..streams as i64)
            .map(|stream| if against { -stream } else { random.between(0, 1000) * 32 + stream })
            .collect();
        Writer { random, plan, types, height, rank }
    }

    /// Records 01 to 04 around the expressions. Half of the flag outputs are triggers.
    fn made(self, equations: Vec<Vec<u8>>) -> Made {
        let inputs = self.plan.inputs;
        let mut bytes = vec![0x01, 1, inputs as u8, self.plan.outputs as u8];
        for &own in &self.types[..inputs] {
            bytes.extend([0x02, own]);
        }
        for &own in &self.types[inputs..] {
            let role = (own == FLAG && self.random.once_in(2)) as u8;
            bytes.extend([0x03, own, role]);
        }
        for (number, expression) in equations.into_iter().enumerate() {
            bytes.extend([0x04, (inputs + number) as u8]);
            bytes.extend(expression);
        }
        Made { bytes, input_types: self.types[..inputs].to_vec() }
    }

    /// An expression of the wanted type in the equation of `own`.
    fn expression(&mut self, own: usize, wanted: u8, bytes: usize, levels: usize) -> Vec<u8> {
        let stop_here = !self.plan.deep && self.random.once_in(8);
        let (kind, operands) = self.operator(wanted);
        if levels == 1 || bytes < 1 + SMALLEST * operands.len() || stop_here {
            return self.leaf(own, wanted, bytes);
        }
        let mut written = vec![kind];
        let shares = self.shares(bytes - 1, operands.len());
        for (operand, share) in operands.into_iter().zip(shares) {
            written.extend(self.expression(own, operand, share, levels - 1));
        }
        written
    }

    /// An operator that gives the wanted type, and its operands' types.
    fn operator(&mut self, wanted: u8) -> (u8, Vec<u8>) {
        if self.random.once_in(5) {
            return (0x23, vec![FLAG, wanted, wanted]);
        }
        match wanted {
            WORD => (self.random.pick(&[0x24, 0x25]), vec![WORD; 2]),
            LEVEL => (self.random.pick(&[0x2B, 0x2C, 0x2D, 0x2E]), vec![LEVEL; 2]),
            _ => match self.random.below(4) {
                0 => (0x20, vec![FLAG]),
                1 => (self.random.pick(&[0x21, 0x22, 0x29]), vec![FLAG; 2]),
                2 => (self.random.pick(&[0x26, 0x27, 0x28]), vec![WORD; 2]),
                _ => (self.random.pick(&[0x2A, 0x2F]), vec![LEVEL; 2]),
            },
        }
    }

    /// `bytes` shared among operands, at least `SMALLEST` each: one takes all the rest in a deep
    /// table, else the rest is shared at random.
    fn shares(&mut self, bytes: usize, operands: usize) -> Vec<usize> {
        let mut shares = vec![SMALLEST; operands];
        let mut rest = bytes - SMALLEST * operands;
        let first = self.random.below(operands);
        for turn in 0..operands {
            let last = turn + 1 == operands;
            let part = if last || self.plan.deep { rest } else { self.random.below(rest + 1) };
            shares[(first + turn) % operands] += part;
            rest -= part;
        }
        shares
    }

    fn leaf(&mut self, own: usize, wanted: u8, bytes: usize) -> Vec<u8> {
        for _ in 0..4 {
            if let Some(written) = self.reference(own, wanted, bytes) {
                return written;
            }
        }
        match wanted {
            FLAG => vec![0x10, self.random.below(2) as u8],
            kind => {
                let mut written = vec![0x10 + kind];
                written.extend(value(self.random, wanted).to_le_bytes());
                written
            }
        }
    }

    /// A now or an at of some stream, if that stream may be read by `own` in these bytes.
    fn reference(&mut self, own: usize, wanted: u8, bytes: usize) -> Option<Vec<u8>> {
        let stream = self.random.below(self.types.len());
        let highest = self.highest_offset(own, stream);
        let reach = self.plan.reach;
        let lowest = -(reach + 1).min(128);
        if self.types[stream] != wanted || highest < lowest {
            return None;
        }
        let near_the_edge = self.random.once_in(2);
        let from = if near_the_edge { lowest.max(highest - 2) } else { lowest };
        let offset = self.random.between(from, highest);
        if offset == 0 || (bytes < 7 && highest >= 0) {
            return Some(vec![0x13, stream as u8]);
        }
        let mut written = vec![0x14, stream as u8, offset as i8 as u8];
        written.extend(value(self.random, wanted).to_le_bytes());
        Some(written)
    }

    /// The highest offset at which `own` may read `stream`. Inputs read nothing, so any will do.
    fn highest_offset(&self, own: usize, stream: usize) -> i64 {
        let reach = self.plan.reach;
        if stream < self.plan.inputs || self.plan.lawless {
            return reach;
        }
        let level_will_do = self.rank[stream] < self.rank[own];
        let highest = self.height[own] - self.height[stream] - !level_will_do as i64;
        highest.min(reach)
    }

    /// A flag expression of exactly `bytes` bytes, as flat as can be.
    fn filler(&mut self, own: usize, bytes: usize) -> Vec<u8> {
        assert!(bytes >= 2);
        let leaf = self.leaf(own, FLAG, bytes);
        if leaf.len() == bytes {
            return leaf;
        }
        match bytes {
            2 => vec![0x10, self.random.below(2) as u8],
            3 | 4 => [vec![0x20], self.filler(own, bytes - 1)].concat(),
            _ => {
                let kind = self.random.pick(&[0x21, 0x22, 0x29]);
                let half = (bytes - 1) / 2;
                let left = self.filler(own, half);
                [vec![kind], left, self.filler(own, bytes - 1 - half)].concat()
            }
        }
    }
}

/// Levels with something special: zeros, ones, the edges of the normal and the denormal numbers,
/// infinities, the single NaN and other NaN patterns; also ordinary numbers that round.
const LEVELS: [u32; 24] = [
    0x0000_0000,
    0x8000_0000,
    0x3F80_0000,
    0xBF80_0000,
    0x0000_0001,
    0x8000_0001,
    0x007F_FFFF,
    0x807F_FFFF,
    0x0080_0000,
    0x8080_0000,
    0x7F7F_FFFF,
    0xFF7F_FFFF,
    0x7F80_0000,
    0xFF80_0000,
    0x7FC0_0000,
    0xFFC0_0000,
    0x7F80_0001,
    0xFFFF_FFFF,
    0x3DCC_CCCD,
    0x4B7F_FFFF,
    0x3EAA_AAAB,
    0x4000_0000,
    0x3F80_0001,
    0x7FBF_FFFF,
];

/// Words near the wrap and near half of it.
const WORDS: [u32; 12] = [
    0,
    1,
    2,
    7,
    0x7FFF_FFFE,
    0x7FFF_FFFF,
    0x8000_0000,
    0x8000_0001,
    0xFFFF_FFFD,
    0xFFFF_FFFE,
    0xFFFF_FFFF,
    0x0001_0000,
];

/// A random value of this type as a word of a row, a constant or a default.
pub fn value(random: &mut Random, own: u8) -> u32 {
    let special = random.once_in(2);
    match own {
        FLAG => random.below(2) as u32,
        WORD if special => random.pick(&WORDS),
        WORD => random.next() as u32,
        _ if special => random.pick(&LEVELS),
        _ => ordinary_level(random),
    }
}

/// A level of one of few exponents, so that sums, products and quotients of two of them often
/// round, become denormal or overflow.
fn ordinary_level(random: &mut Random) -> u32 {
    let (lowest, highest) = random.pick(&[(0, 2), (58, 69), (124, 130), (124, 130), (252, 254)]);
    let exponent = random.between(lowest, highest) as u32;
    let sign_and_fraction = random.next() as u32 & 0x807F_FFFF;
    sign_and_fraction | exponent << 23
}

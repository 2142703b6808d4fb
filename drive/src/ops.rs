//! Operations, as both sides take them: ours as script records, the published matrix as calls.

#[derive(Clone, Copy, Debug, PartialEq, Eq)]
pub enum Op {
    Make(u32, u32, u32, u32),
    Set(u32, u32, u8),
    SwapR(u32, u32),
    SwapC(u32, u32),
    Add(u32, u32, u32),
    On,
    Off,
    Freeze(u32),
    Resize(u32, u32),
    Get(u32, u32),
    Count(u32, u32, u32),
    Words(u32, u32),
    TailOnes(u32, u32),
    Iter(u32, u32, u32),
    ColOnes(u32, u32, u32),
    Size,
}

impl Op {
    /// 01's name.
    pub fn name(&self) -> &'static str {
        match self {
            Op::Make(..) => "MAKE",
            Op::Set(..) => "SET",
            Op::SwapR(..) => "SWAPR",
            Op::SwapC(..) => "SWAPC",
            Op::Add(..) => "ADD",
            Op::On => "ON",
            Op::Off => "OFF",
            Op::Freeze(..) => "FREEZE",
            Op::Resize(..) => "RESIZE",
            Op::Get(..) => "GET",
            Op::Count(..) => "COUNT",
            Op::Words(..) => "WORDS",
            Op::TailOnes(..) => "TAILONES",
            Op::Iter(..) => "ITER",
            Op::ColOnes(..) => "COLONES",
            Op::Size => "SIZE",
        }
    }
}

/// The operations as script records.
pub fn records(ops: &[Op]) -> Vec<u8> {
    let mut out = Vec::new();
    for op in ops {
        let (tag, places): (u8, Vec<u32>) = match *op {
            Op::Make(h, w, n, slots) => (1, vec![h, w, n, slots]),
            Op::Set(r, c, _) => (2, vec![r, c]),
            Op::SwapR(i, j) => (3, vec![i, j]),
            Op::SwapC(i, j) => (4, vec![i, j]),
            Op::Add(d, s, start) => (5, vec![d, s, start]),
            Op::On => (6, vec![]),
            Op::Off => (7, vec![]),
            Op::Freeze(c) => (8, vec![c]),
            Op::Resize(h, w) => (9, vec![h, w]),
            Op::Get(r, c) => (16, vec![r, c]),
            Op::Count(r, a, b) => (17, vec![r, a, b]),
            Op::Words(r, a) => (18, vec![r, a]),
            Op::TailOnes(r, a) => (19, vec![r, a]),
            Op::Iter(r, a, b) => (20, vec![r, a, b]),
            Op::ColOnes(c, a, b) => (21, vec![c, a, b]),
            Op::Size => (22, vec![]),
        };
        let bit = match *op {
            Op::Set(_, _, v) => Some(v),
            _ => None,
        };
        let long = places.len() * 4 + bit.iter().len();
        out.push(tag);
        out.extend((long as u16).to_le_bytes());
        for place in places {
            out.extend(place.to_le_bytes());
        }
        out.extend(bit);
    }
    out
}

/// Numbers that look random, the same in every run (xorshift).
pub struct Dice(u64);

impl Dice {
    pub fn new(seed: u64) -> Dice {
        Dice(seed * 2 + 1)
    }

    /// A number below n.
    pub fn below(&mut self, n: u32) -> u32 {
        self.0 ^= self.0 << 13;
        self.0 ^= self.0 >> 7;
        self.0 ^= self.0 << 17;
        ((self.0 >> 32) % n as u64) as u32
    }
}

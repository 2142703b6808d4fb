//! The lists that are compared: random ones, ones at the edges, and ones as a solver makes them. Each next operation may look at the table so far.
use crate::table::Table;
use drive::ops::{Dice, Op};

/// How the next operation is chosen.
#[derive(Clone, Copy, Debug, PartialEq)]
pub enum Style {
    /// Any operation, numbers mostly in range.
    Any,
    /// The steps of a solver, in its phases.
    Solver,
}

/// A number that is mostly below n, now and then n, n + 1 or far beyond.
fn near(n: u32, dice: &mut Dice) -> u32 {
    match dice.below(24) {
        0 => n,
        1 => n.wrapping_add(1),
        2 => [65_535, 65_536, u32::MAX][dice.below(3) as usize],
        _ => dice.below(n.max(1)),
    }
}

/// A range for a query, mostly the whole.
fn range(n: u32, dice: &mut Dice) -> (u32, u32) {
    match dice.below(3) {
        0 => (0, n),
        1 => (near(n, dice), near(n, dice)),
        _ => {
            let a = dice.below(n + 1);
            (a, a + dice.below(n - a + 1))
        }
    }
}

/// Whether the published matrix can build its index: there is a one, and none in a home column at or past the height.
fn indexable(t: &Table) -> bool {
    let mut homes = (0..t.h).flat_map(|r| t.ones(r)).map(|c| t.homes[c as usize]).peekable();
    homes.peek().is_some() && homes.all(|z| z < t.h)
}

/// Any operation that the dice choose.
pub fn any(t: &Table, dice: &mut Dice) -> Op {
    let (h, w, edge) = (t.h, t.w, t.edge());
    match dice.below(40) {
        0..=7 => Op::Set(near(h, dice), near(w, dice), [0, 1, 1, 1, 7][dice.below(5) as usize]),
        8..=9 => Op::SwapR(near(h, dice), near(h, dice)),
        10..=11 => Op::SwapC(near(edge, dice), near(edge, dice)),
        12..=16 => Op::Add(near(h, dice), near(h, dice), [0, 0, edge, near(w, dice)][dice.below(4) as usize]),
        // the published matrix cannot index every table: mostly only what it can, so that both go on
        17..=18 if indexable(t) || dice.below(12) == 0 => Op::On,
        17..=18 => Op::Size,
        19 => Op::Off,
        20..=22 => Op::Freeze(if dice.below(8) == 0 { near(w, dice) } else { edge.wrapping_sub(1) }),
        23 => match dice.below(4) {
            0 => Op::Resize(near(h, dice), near(w, dice)),
            1 => Op::Resize(h, edge.min(w)),
            2 => Op::Resize(h - h.min(1), w),
            _ => Op::Resize(h, edge - edge.min(1)),
        },
        24..=27 => Op::Get(near(h, dice), near(w, dice)),
        28..=29 => {
            let (a, b) = range(edge, dice);
            Op::Count(near(h, dice), a, b)
        }
        30..=31 => Op::Words(near(h, dice), if dice.below(6) == 0 { near(w, dice) } else { edge }),
        32..=33 => Op::TailOnes(near(h, dice), if dice.below(6) == 0 { near(w, dice) } else { edge }),
        34..=35 => {
            let (a, b) = range(edge, dice);
            Op::Iter(near(h, dice), a, b)
        }
        36..=38 => {
            let (a, b) = range(h, dice);
            Op::ColOnes(near(edge, dice), a, b)
        }
        _ => match dice.below(4) {
            0 => Op::Make(near(h + 1, dice), near(w + 1, dice), near(t.n + 1, dice), near(t.slots + 1, dice)),
            _ => Op::Size,
        },
    }
}

/// A solver's steps on the table as it stands: while the index is on, a row with one one is chosen by COUNT, brought up, and cancelled out of the rows that
/// COLONES names, or the last column is frozen; then the index is dropped, rows are added whole and in the tail alone, and the matrix is cut down.
pub fn solver(t: &Table, step: u32, dice: &mut Dice) -> Vec<Op> {
    let (h, w, edge) = (t.h, t.w, t.edge());
    if step == 0 {
        return vec![Op::On];
    }
    if t.on {
        if edge > 0 && dice.below(5) == 0 {
            return vec![Op::Freeze(edge - 1)];
        }
        let rows: Vec<u32> = (0..h).filter(|r| t.ones(*r).len() == 1).collect();
        if rows.is_empty() || step > 60 || edge == 0 {
            return if step > 60 || edge == 0 {
                vec![Op::Off]
            } else {
                vec![Op::Freeze(edge - 1)]
            };
        }
        let r = rows[dice.below(rows.len() as u32) as usize];
        let c = t.ones(r)[0];
        let mut ops = vec![Op::Count(r, 0, edge), Op::Iter(r, 0, edge), Op::ColOnes(c, 0, h)];
        let d = dice.below(h);
        if d != r && t.bits[d as usize][c as usize] {
            ops.push(Op::Add(d, r, 0));
        }
        ops.push(Op::SwapR(r, dice.below(h)));
        ops.push(Op::SwapC(c, dice.below(edge)));
        return ops;
    }
    if h < 2 {
        return vec![Op::Size];
    }
    let d = dice.below(h);
    let s = (d + 1 + dice.below(h - 1)) % h;
    match dice.below(8) {
        0 => vec![Op::Words(d, edge), Op::TailOnes(d, edge)],
        1 if step > 100 => vec![Op::Resize(h - 1, w), Op::Size],
        2 if step > 110 => vec![Op::Resize(h, edge), Op::Size],
        3..=4 => vec![Op::Add(d, s, edge), Op::Get(d, w.max(1) - 1)],
        _ => vec![Op::Add(d, s, 0), Op::Iter(d, 0, edge)],
    }
}

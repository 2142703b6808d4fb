//! Runs the same operations on our store, on a plain table written from 01, and on the published matrix, and holds the answers against each other.
//!
//!     compare/run [CASES]
//!
//! Ours is held to the table in every answer and every refusal, at ample room and at room that is short by a little. The published matrix is fed what ours
//! accepts, until it stops where docs/DIFFERENCES.md says that it does; and, on a copy, what ours refuses with 4 to 11, which is only counted.
use compare::check::lend;
use compare::differences::{in_domain, listed};
use compare::lists::{self, Style};
use compare::table::{Answer, Room, Table};
use drive::ops::{Dice, Op};
use drive::{ours, theirs};
use published::matrix::BinaryMatrix;
use published::sparse_matrix::SparseBinaryMatrix;
use std::collections::BTreeMap;
use std::panic::{catch_unwind, AssertUnwindSafe};

/// What was seen.
#[derive(Default)]
struct Tally {
    operations: u64,
    accepted: u64,
    refused: BTreeMap<u32, u64>,
    compared: BTreeMap<&'static str, u64>,
    cells: u64,
    stopped: BTreeMap<&'static str, u64>,
    copies: BTreeMap<(&'static str, u32), (u64, u64)>,
}

/// Our answer in the form of theirs: WORDS as bits, SIZE without n.
fn as_theirs(t: &Table, op: Op, answer: &[u64]) -> Vec<u64> {
    match op {
        Op::Words(..) => {
            let padding = (64 - t.n as usize % 64) % 64;
            (0..t.n as usize)
                .map(|d| answer[(padding + d) / 64] >> ((padding + d) % 64) & 1)
                .collect()
        }
        Op::Size => answer[..2].to_vec(),
        _ => answer.to_vec(),
    }
}

struct Case {
    table: Table,
    room: ours::Room,
    answers: Vec<u32>,
    matrix: Option<SparseBinaryMatrix>,
    flagged: Vec<bool>,
    said: Vec<Op>,
}

fn fail(case: &Case, what: &str) -> ! {
    eprintln!("{what}\nroom {:?}\nafter:", case.table.room);
    for op in &case.said {
        eprintln!("  {op:?}");
    }
    std::process::exit(1);
}

impl Case {
    fn new(room: Room) -> Case {
        Case {
            table: Table::new(room),
            room: lend(&room),
            answers: vec![0; room.answers],
            matrix: Some(theirs::new()),
            flagged: vec![],
            said: vec![],
        }
    }

    /// The same operations everywhere.
    fn all(&mut self, ops: impl Fn(&Table, u32, &mut Dice) -> Vec<Op>, steps: u32, dice: &mut Dice, tally: &mut Tally) {
        let mut room = std::mem::replace(&mut self.room, ours::Room::new(0, 0, 0, 0, 0));
        let mut store = room.store();
        for step in 0..steps {
            for op in ops(&self.table, step, dice) {
                self.said.push(op);
                tally.operations += 1;
                let before = self.table.clone();
                let meant: Answer = self.table.call(op);
                let got = ours::call(&mut store, op, &mut self.answers);
                if got != meant {
                    fail(self, &format!("{op:?}: ours {got:?}, the table {meant:?}"));
                }
                match meant {
                    Ok(answer) => {
                        tally.accepted += 1;
                        self.published(&before, op, &answer, tally);
                    }
                    Err(number) => {
                        *tally.refused.entry(number).or_default() += 1;
                        self.on_a_copy(op, number, tally);
                    }
                }
            }
        }
        self.cells(tally);
    }

    /// The published matrix on what ours accepted.
    fn published(&mut self, before: &Table, op: Op, answer: &[u64], tally: &mut Tally) {
        let listed = listed(before, op, &self.flagged);
        match op {
            Op::Make(_, w, ..) => self.flagged = vec![false; w as usize],
            Op::Add(_, s, 0) if before.on => self.flagged[before.ones(s)[0] as usize] = true,
            Op::SwapC(i, j) => self.flagged.swap(i as usize, j as usize),
            _ => {}
        }
        let Some(mut matrix) = self.matrix.take() else { return };
        let told = catch_unwind(AssertUnwindSafe(|| {
            let told = theirs::call(&mut matrix, op);
            (matrix, told)
        }));
        match told {
            Err(_) => match listed {
                Some(why) => *tally.stopped.entry(why).or_default() += 1,
                None => fail(
                    self,
                    &format!("{op:?}: the published matrix stops, and docs/DIFFERENCES.md does not say so"),
                ),
            },
            Ok((matrix, told)) => {
                self.matrix = Some(matrix);
                if in_domain(op) {
                    *tally.compared.entry(op.name()).or_default() += 1;
                    let ours = as_theirs(before, op, answer);
                    if told != ours {
                        fail(self, &format!("{op:?}: ours {ours:?}, the published {told:?}"));
                    }
                }
            }
        }
    }

    /// What the published matrix does where ours refuses with 4 to 11: it stops, or it answers.
    fn on_a_copy(&mut self, op: Op, number: u32, tally: &mut Tally) {
        let huge = matches!(op, Op::Resize(h, w) if h > 65_536 || w > 65_536) || matches!(op, Op::ColOnes(_, _, b) if b > 65_536);
        if !(4..=11).contains(&number) || huge {
            return;
        }
        let Some(matrix) = &self.matrix else { return };
        let mut copy = matrix.clone();
        let told = catch_unwind(AssertUnwindSafe(|| theirs::call(&mut copy, op)));
        let counts = tally.copies.entry((op.name(), number)).or_default();
        match told {
            Err(_) => counts.0 += 1,
            Ok(_) => counts.1 += 1,
        }
    }

    /// Every cell, at the end.
    fn cells(&mut self, tally: &mut Tally) {
        let Some(matrix) = &self.matrix else { return };
        if self.table.h as u64 * self.table.w as u64 > 100_000 {
            return;
        }
        for r in 0..self.table.h {
            for c in 0..self.table.w {
                let theirs = matrix.get(r as usize, c as usize) == published::octet::Octet::one();
                tally.cells += 1;
                if theirs != self.table.bits[r as usize][c as usize] {
                    fail(self, &format!("cell {r}, {c} of the published matrix is {theirs}"));
                }
            }
        }
    }
}

/// The shapes: small ones, tails at 63 to 65, more columns than rows, none at all, and the limits.
fn shape(k: u64, dice: &mut Dice) -> (u32, u32, u32) {
    match k % 16 {
        0 => (0, dice.below(3), 0),
        1 => (dice.below(4), 0, 0),
        2 => (1 + dice.below(3), 70, 62 + dice.below(4)),
        3 => (4, 140, 126 + dice.below(4)),
        4 => (3, 8, dice.below(9)),
        5..=9 => {
            let h = 4 + dice.below(12);
            let w = 2 + dice.below(h - 1);
            (h, w, 1 + dice.below(w.min(3)).min(w - 1))
        }
        _ => {
            let h = 1 + dice.below(14);
            let w = 1 + dice.below(14);
            (h, w, dice.below(w + 1))
        }
    }
}

fn one_case(k: u64, tally: &mut Tally) {
    let mut dice = Dice::new(k + 1);
    dice.below(2);
    let (h, w, n) = shape(k, &mut dice);
    let style = if k % 16 >= 5 && k % 16 <= 9 { Style::Solver } else { Style::Any };
    let slots = match dice.below(3) {
        0 => 1 + dice.below(3),
        _ => w,
    };
    let words = h as usize * ((n as usize + dice.below(3) as usize * 64).div_ceil(64).max(1));
    let short = |x: usize, dice: &mut Dice| {
        if dice.below(6) == 0 {
            x - x.min(1)
        } else {
            x + dice.below(3) as usize
        }
    };
    let room = Room {
        slots: short(h as usize * slots as usize, &mut dice),
        rows: h as usize + dice.below(2) as usize,
        columns: w as usize + dice.below(2) as usize,
        starts: w as usize + 1 + dice.below(2) as usize,
        entries: if dice.below(4) == 0 {
            dice.below(8) as usize
        } else {
            h as usize * w as usize
        },
        words: short(words, &mut dice),
        answers: if dice.below(4) == 0 {
            dice.below(4) as usize
        } else {
            (h.max(w)) as usize
        },
    };
    let filling = 1 + 2 * h;
    let next = |t: &Table, step: u32, dice: &mut Dice| match step {
        0 => vec![Op::Make(h, w, n, slots)],
        _ if step < filling => vec![Op::Set(dice.below(h.max(1)), dice.below(w.max(1)), 1)],
        _ if style == Style::Solver => lists::solver(t, step - filling, dice),
        _ => vec![lists::any(t, dice)],
    };
    Case::new(room).all(next, filling + 130, &mut dice, tally);
}

/// Shapes at the limits: few steps, since every call looks at the whole store.
fn large(tally: &mut Tally) {
    for (k, (h, w, n, slots)) in [
        (65_535, 3, 1, 2),
        (2, 65_535, 1, 3),
        (65_535, 70, 64, 2),
        (3, 65_535, 65_535, 0),
        (300, 65_535, 2, 4),
        (65_535, 1, 0, 1),
    ]
    .into_iter()
    .enumerate()
    {
        let mut dice = Dice::new(900 + k as u64);
        let room = Room {
            slots: h as usize * slots as usize,
            rows: h as usize,
            columns: w as usize,
            starts: w as usize + 1,
            entries: h as usize * slots as usize,
            words: h as usize * (n as usize + 1).div_ceil(64),
            answers: 65_535,
        };
        let next = |t: &Table, step: u32, dice: &mut Dice| match step {
            0 => vec![Op::Make(h, w, n, slots)],
            1..=60 => vec![Op::Set(
                dice.below(h),
                if step % 2 == 0 { dice.below(w) } else { dice.below(3.min(w)) },
                1,
            )],
            _ => vec![lists::any(t, dice)],
        };
        Case::new(room).all(next, 140, &mut dice, tally);
    }
}

fn counts<K: std::fmt::Display>(map: &BTreeMap<K, u64>) -> String {
    map.iter().map(|(k, n)| format!("{k}: {n}")).collect::<Vec<_>>().join(", ")
}

fn main() {
    let cases: u64 = std::env::args().nth(1).map_or(20_000, |word| word.parse().expect("how many cases"));
    std::panic::set_hook(Box::new(|_| {}));
    let mut tally = Tally::default();
    for k in 0..cases {
        one_case(k, &mut tally);
    }
    large(&mut tally);
    let build = if cfg!(debug_assertions) { "debug" } else { "release" };
    println!("{cases} cases and 6 large ones, the published matrix in {build}: no difference");
    println!(
        "{} operations, {} accepted; refused {}",
        tally.operations,
        tally.accepted,
        counts(&tally.refused)
    );
    println!("held against the published: {}; cells {}", counts(&tally.compared), tally.cells);
    println!("it stopped where docs/DIFFERENCES.md says so: {}", counts(&tally.stopped));
    println!("what ours refuses with 4 to 11, on a copy of it (stops, goes on):");
    for ((name, number), (stops, goes)) in &tally.copies {
        println!("  {name} {number}: {stops}, {goes}");
    }
}

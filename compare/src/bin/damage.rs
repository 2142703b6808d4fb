//! Damages stores and calls every operation: each bit of each lent number and of the head flipped in turn, each buffer cut short by one, and longer by a zero
//! and by a one. A call says 1 exactly where the plain check finds the store not well-formed, else what the plain table says; refused, it has changed
//! nothing.
//!
//!     compare/damage [STORES]
use clatterthaw::{Head, Store};
use compare::check::{room_of, table_of, well_formed};
use compare::lists;
use compare::table::{Answer, Table};
use drive::ops::{records, Dice, Op};
use drive::ours;
use std::collections::BTreeMap;

const ANSWERS: usize = 6;

#[derive(Default)]
struct Tally {
    stores: BTreeMap<&'static str, u64>,
    variants: u64,
    damaged: u64,
    calls: u64,
    refused: BTreeMap<u32, u64>,
    accepted: u64,
}

/// Each buffer under its name, for a change to one of them.
fn each_buffer(room: &ours::Room, mut f: impl FnMut(&'static str, ours::Room)) {
    macro_rules! vary {
        ($($name:ident: $type:ty),*) => {$(
            for i in 0..room.$name.len() {
                for bit in 0..<$type>::BITS {
                    let mut other = room.clone();
                    other.$name[i] ^= 1 << bit;
                    f(stringify!($name), other);
                }
            }
            if !room.$name.is_empty() {
                let mut other = room.clone();
                other.$name.pop();
                f(stringify!($name), other);
            }
            for more in [0, 1] {
                let mut other = room.clone();
                other.$name.push(more);
                f(stringify!($name), other);
            }
        )*};
    }
    vary!(slots: u16, counts: u16, row_homes: u32, row_logicals: u32, column_homes: u16, column_logicals: u16, marks: u8, starts: u64, entries: u32, words: u64);
}

/// The head with each bit of each number flipped.
fn each_head(head: Head, mut f: impl FnMut(Head)) {
    for field in 0..6 {
        for bit in 0..32 {
            let mut other = head;
            let place = match field {
                0 => &mut other.h,
                1 => &mut other.w,
                2 => &mut other.n,
                3 => &mut other.slots,
                4 => &mut other.made,
                _ => &mut other.on,
            };
            *place ^= 1 << bit;
            f(other);
        }
    }
}

fn operations(head: &Head) -> Vec<Op> {
    let (h, w) = (head.h.min(8), head.w.min(12));
    let edge = w - head.n.min(w);
    vec![
        Op::Set(0, 0, 1),
        Op::Set(h.max(1) - 1, w.max(1) - 1, 1),
        Op::SwapR(0, h.max(1) - 1),
        Op::SwapC(0, edge.max(1) - 1),
        Op::Add(0, 1, 0),
        Op::Add(1, 0, edge),
        Op::On,
        Op::Off,
        Op::Freeze(edge.max(1) - 1),
        Op::Resize(h.max(1) - 1, edge),
        Op::Get(h.max(1) - 1, 0),
        Op::Count(0, 0, edge),
        Op::Words(1, edge),
        Op::TailOnes(0, edge),
        Op::Iter(1, 0, edge),
        Op::ColOnes(0, 0, h),
        Op::Size,
        Op::Make(1, 2, 1, 1),
        Op::Make(65_536, 0, 0, 0),
    ]
}

fn fail(head: &Head, room: &ours::Room, op: Op, what: String) -> ! {
    eprintln!("{op:?}: {what}\n{head:?}\nslots {:?}\ncounts {:?}\nrow maps {:?} {:?}\ncolumn maps {:?} {:?}\nmarks {:?}\nstarts {:?}\nentries {:?}\nwords {:?}", room.slots, room.counts, room.row_homes, room.row_logicals, room.column_homes, room.column_logicals, room.marks, room.starts, room.entries, room.words);
    std::process::exit(1);
}

/// Every operation, and a run, over one store, whatever it holds.
fn try_all(head: Head, room: &ours::Room, tally: &mut Tally) {
    let whole = well_formed(&head, room);
    let table = whole.then(|| table_of(&head, room, ANSWERS));
    tally.variants += 1;
    tally.damaged += !whole as u64;
    for op in operations(&head) {
        let meant: Answer = match (&table, op) {
            (None, Op::Make(..)) => Table::new(room_of(room, ANSWERS)).call(op),
            (None, _) => Err(1),
            (Some(table), _) => table.clone().call(op),
        };
        let mut after = room.clone();
        let mut answers = [77; ANSWERS];
        let mut store = Store::from_parts(head, after.buffers());
        let got = ours::call(&mut store, op, &mut answers);
        let left = store.head();
        tally.calls += 1;
        if got != meant {
            fail(&head, room, op, format!("says {got:?}, and should say {meant:?}"));
        }
        match got {
            Err(number) => {
                *tally.refused.entry(number).or_default() += 1;
                if after != *room || left != head || answers != [77; ANSWERS] {
                    fail(&head, room, op, format!("refused with {number}, and changed a number"));
                }
            }
            Ok(_) => tally.accepted += 1,
        }
    }
    let mut after = room.clone();
    let (mut answers, mut lines) = ([77; ANSWERS], [7; 40]);
    let mut store = Store::from_parts(head, after.buffers());
    let ran = store.run(&mut answers, &records(&[Op::Size]), &mut lines);
    tally.calls += 1;
    if ran.is_ok() != whole || (!whole && (after != *room || answers != [77; ANSWERS] || lines != [7; 40])) {
        fail(&head, room, Op::Size, "as a run".into());
    }
}

/// An ADD that cancels a one while the index is on, if there is one to cancel.
fn spending(t: &Table) -> Option<Op> {
    let singles = (0..t.h).filter(|s| t.ones(*s).len() == 1);
    singles
        .flat_map(|s| (0..t.h).map(move |d| (d, s)))
        .find(|(d, s)| d != s && t.bits[*d as usize][t.ones(*s)[0] as usize])
        .map(|(d, s)| Op::Add(d, s, 0))
}

/// A store after a random list, and which kind of store it is.
fn store_of(k: u64) -> (Head, ours::Room, &'static str) {
    let mut dice = Dice::new(k + 1);
    let (h, w) = (2 + dice.below(3), 2 + dice.below(4));
    let n = dice.below(w);
    let slots = 1 + dice.below(3);
    let mut room = ours::Room::new(
        h + dice.below(2),
        w + dice.below(2),
        slots,
        (h * slots) as usize,
        n + 1 + dice.below(2) * 64,
    );
    let mut table = Table::new(room_of(&room, ANSWERS));
    let (mut spent, mut shrunk, mut frozen) = (false, false, false);
    let head = {
        let mut store = room.store();
        for step in 0..30 {
            let op = match step {
                0 => Op::Make(h, w, n, slots),
                1..=8 => Op::Set(dice.below(h), dice.below(w), 1),
                9 if k % 5 != 0 => Op::On,
                10 | 15 if k % 5 == 2 => spending(&table).unwrap_or(Op::Size),
                _ => loop {
                    let op = lists::any(&table, &mut dice);
                    if !matches!(op, Op::Make(..)) && !(k % 5 < 3 && matches!(op, Op::Off)) {
                        break op;
                    }
                },
            };
            let before = table.clone();
            let meant = table.call(op);
            let got = ours::call(&mut store, op, &mut [0; ANSWERS]);
            assert_eq!(got, meant, "{op:?}");
            spent = table.spent.iter().any(|b| *b);
            frozen = (frozen || (matches!(op, Op::Freeze(_)) && meant.is_ok())) && table.on;
            shrunk |= meant.is_ok() && matches!(op, Op::Resize(..)) && (table.h, table.w) != (before.h, before.w);
        }
        store.head()
    };
    let kind = match (table.on, spent, frozen, shrunk) {
        (true, true, ..) => "index on, a spent column",
        (true, _, true, _) => "index on, a frozen column",
        (true, ..) => "index on",
        (false, _, _, true) => "index off, shrunk",
        _ => "index off",
    };
    (head, room, kind)
}

fn main() {
    let stores: u64 = std::env::args().nth(1).map_or(300, |word| word.parse().expect("how many stores"));
    let mut tally = Tally::default();
    for k in 0..stores {
        let (head, room, kind) = store_of(k);
        *tally.stores.entry(kind).or_default() += 1;
        try_all(head, &room, &mut tally);
        each_head(head, |other| try_all(other, &room, &mut tally));
        each_buffer(&room, |_, other| try_all(head, &other, &mut tally));
    }
    let counts = |map: &BTreeMap<u32, u64>| map.iter().map(|(k, n)| format!("{k}: {n}")).collect::<Vec<_>>().join(", ");
    println!(
        "{stores} stores: {}",
        tally.stores.iter().map(|(k, n)| format!("{n} {k}")).collect::<Vec<_>>().join("; ")
    );
    println!(
        "{} stores tried with each number damaged in turn, {} of them not well-formed by the plain check",
        tally.variants, tally.damaged
    );
    println!(
        "{} calls: {} accepted; refused {}",
        tally.calls,
        tally.accepted,
        counts(&tally.refused)
    );
    println!("1 exactly where the plain check says so, else the table's answer; no refusal changed a number");
}

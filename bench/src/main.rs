//! The store beside the published sparse matrix, in one process: the same lists on both sides, turn by turn, buffers freshly made; ratios are the middle
//! one of several rounds. Prints docs/SPEED.md's tables and, given a file name, writes the picture of the growth.
mod lists;
mod picture;

use clatterthaw::Store;
use drive::ours::{self, Room};
use drive::{ops, theirs};
use lists::List;
use published::matrix::BinaryMatrix;
use std::hint::black_box;
use std::time::Instant;

const ROUNDS: usize = 7;
const HEADING: &str =
    "| list | operations | our check, once | ours, each | published, each | ratio of the whole |\n|---|---|---|---|---|---|";

/// Seconds of our run over the list's records, its one check included.
fn time_ours(list: &List, records: &[u8], before: &[u8]) -> f64 {
    let mut answers = vec![0; 65_536];
    let mut lines = vec![0; 1 << 22];
    let now = Instant::now();
    let mut room = Room::new(list.h, list.w, list.slots, list.ones, list.tail);
    let made = now.elapsed().as_secs_f64();
    let mut store = room.store();
    ours::run(&mut store, before, &mut answers, &mut lines);
    let now = Instant::now();
    ours::run(&mut store, records, &mut answers, &mut lines);
    now.elapsed().as_secs_f64() + if before.is_empty() { made } else { 0.0 }
}

/// Seconds of the published matrix over the same operations.
fn time_theirs(list: &List) -> f64 {
    let (mut rows, mut columns) = (Vec::new(), Vec::new());
    let mut matrix = theirs::new();
    theirs::run(&mut matrix, &list.before, &mut rows, &mut columns);
    let now = Instant::now();
    theirs::run(&mut matrix, &list.timed, &mut rows, &mut columns);
    let took = now.elapsed().as_secs_f64();
    black_box(&matrix);
    took
}

fn middle(mut x: Vec<f64>) -> f64 {
    x.sort_by(|a, b| a.partial_cmp(b).unwrap());
    x[x.len() / 2]
}

/// Ours, theirs (seconds for the whole list) and the ratio.
fn beside(list: &List) -> (f64, f64, f64) {
    let (records, before) = (ops::records(&list.timed), ops::records(&list.before));
    let mut room = Room::new(list.h, list.w, list.slots, list.ones, list.tail);
    let mut lines = vec![0; 1 << 22];
    let mut store = room.store();
    ours::run_checked(&mut store, &before, &mut vec![0; 65_536], &mut lines);
    ours::run_checked(&mut store, &records, &mut vec![0; 65_536], &mut lines);
    let (mut a, mut b, mut r) = (vec![], vec![], vec![]);
    for _ in 0..ROUNDS {
        let (x, y) = (time_ours(list, &records, &before), time_theirs(list));
        a.push(x);
        b.push(y);
        r.push(x / y);
    }
    (middle(a), middle(b), middle(r))
}

fn told(seconds: f64) -> String {
    match seconds {
        s if s < 1e-6 => format!("{:.0} ns", s * 1e9),
        s if s < 1e-3 => format!("{:.2} us", s * 1e6),
        s => format!("{:.2} ms", s * 1e3),
    }
}

/// A line of a table; answers how long one operation takes, ours without the run's one check, and theirs.
fn row(list: &List) -> (f64, f64) {
    let (x, y, r) = beside(list);
    let n = list.timed.len() as f64;
    let check = checking(list);
    let bare = (x - check).max(0.0) / n;
    println!(
        "| {} | {} | {} | {} | {} | {:.2} |",
        list.name,
        list.timed.len(),
        told(check),
        told(bare),
        told(y / n),
        r
    );
    (bare, y / n)
}

/// Seconds of the check that a run makes before the list's first record.
fn checking(list: &List) -> f64 {
    let mut room = Room::new(list.h, list.w, list.slots, list.ones, list.tail);
    let mut store = filled(&mut room, list);
    one(|| {
        store.run(&mut [], &[], &mut []).unwrap();
    })
}

/// Seconds of one call, the middle of several rounds.
fn one(mut call: impl FnMut()) -> f64 {
    let mut all = vec![];
    for _ in 0..ROUNDS {
        let now = Instant::now();
        for _ in 0..20 {
            call();
        }
        all.push(now.elapsed().as_secs_f64() / 20.0);
    }
    middle(all)
}

fn filled<'a>(room: &'a mut Room, list: &List) -> Store<'a> {
    let mut store = room.store();
    ours::run(&mut store, &ops::records(&list.before), &mut vec![0; 65_536], &mut vec![0; 1 << 22]);
    store
}

fn single_calls() {
    println!("\n## Single calls: each checks the whole store\n");
    println!("| rows, columns | slots a row | the check (SIZE) | GET | SET | ADD |\n|---|---|---|---|---|---|");
    for (h, slots) in [(100, 32), (1_000, 32), (10_000, 32), (1_000, 64), (1_000, 256), (1_000, 1_000)] {
        let mut list = lists::growth(h).swap_remove(0);
        list.slots = slots;
        list.before[0] = ops::Op::Make(h, h, 1, slots);
        let mut room = Room::new(h, h, slots, list.ones, list.tail);
        let mut store = filled(&mut room, &list);
        let check = one(|| {
            black_box(store.size().unwrap());
        });
        let get = one(|| {
            black_box(store.get(h / 2, 3).unwrap());
        });
        let set = one(|| store.set(h / 2, 3, true).unwrap());
        let add = one(|| store.add(1, 2, 0).unwrap());
        println!(
            "| {h} | {slots} | {} | {} | {} | {} |",
            told(check),
            told(get),
            told(set),
            told(add)
        );
    }
}

fn sizes() {
    println!("\n## Bytes\n\n| store | ours, lent | the published, as it says | ratio |\n|---|---|---|---|");
    let k11 = lists::k11(1);
    let (mut rows, mut columns) = (vec![], vec![]);
    for (what, list, slots) in [
        ("K11 after its list", k11, 1000),
        (
            "1,000 by 1,000, eight ones a row, 32 slots",
            lists::growth(1_000).swap_remove(0),
            32,
        ),
        ("10,000 by 10,000, the same", lists::growth(10_000).swap_remove(0), 32),
    ] {
        let room = Room::new(list.h, list.w, slots, list.ones, list.tail);
        let mut matrix = theirs::new();
        theirs::run(&mut matrix, &list.before, &mut rows, &mut columns);
        if list.before.is_empty() {
            theirs::run(&mut matrix, &list.timed, &mut rows, &mut columns);
        }
        println!(
            "| {what} | {} | {} | {:.2} |",
            room.bytes(),
            matrix.size_in_bytes(),
            room.bytes() as f64 / matrix.size_in_bytes() as f64
        );
    }
}

fn main() {
    let picture = std::env::args().nth(1);
    println!("## Lists\n\n{HEADING}");
    for seed in 1..4 {
        row(&lists::k11(seed));
    }
    for list in lists::kinds() {
        row(&list);
    }
    println!("\n## Growth: h by h, eight ones a row\n\n{HEADING}");
    let mut points = vec![];
    for h in [100, 316, 1_000, 3_162, 10_000] {
        for mut list in lists::growth(h) {
            let name = list.name;
            list.name = Box::leak(format!("{name}, {h} rows").into_boxed_str());
            let (x, y) = row(&list);
            points.push((name, h, x, y));
        }
    }
    single_calls();
    sizes();
    if let Some(file) = picture {
        std::fs::write(file, picture::growth(&points)).unwrap();
    }
}

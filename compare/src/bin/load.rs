//! A long run: records in pieces of any length over the script program's room, every line held to the plain table's, byte for byte.
//!
//!     compare/load [RECORDS]
use compare::check::lend;
use compare::lists;
use compare::table::{line, Table, PROGRAM};
use drive::ops::{records, Dice, Op};

/// What the process holds, in KiB; 0 where the system does not say.
fn held() -> u64 {
    let status = std::fs::read_to_string("/proc/self/status").unwrap_or_default();
    let line = status.lines().find(|line| line.starts_with("VmRSS:")).unwrap_or("VmRSS: 0");
    line.split_whitespace().nth(1).and_then(|word| word.parse().ok()).unwrap_or(0)
}

fn main() {
    let all: u64 = std::env::args()
        .nth(1)
        .map_or(10_000_000, |word| word.parse().expect("how many records"));
    let mut room = lend(&PROGRAM);
    let mut store = room.store();
    let mut table = Table::new(PROGRAM);
    let mut dice = Dice::new(1);
    let (mut answers, mut lines) = (vec![0; PROGRAM.answers], vec![0; 4096]);
    let (mut done, mut runs, mut bytes, mut early) = (0, 0u64, 0u64, 0);
    while done < all {
        let (mut ops, mut meant) = (vec![], String::new());
        for _ in 0..1 + dice.below(400) {
            let op = match dice.below(300) {
                0 => Op::Make(dice.below(20), dice.below(24), dice.below(4), dice.below(8)),
                _ => lists::any(&table, &mut dice),
            };
            // shapes stay small, so that the table keeps up
            let op = match op {
                Op::Make(h, w, ..) if h.max(w) > 40 && h.max(w) < 65_536 => Op::Size,
                op => op,
            };
            ops.push(op);
            meant += &line(&table.call(op));
        }
        done += ops.len() as u64;
        let script = records(&ops);
        let (mut at, mut said) = (0, Vec::new());
        while at < script.len() {
            let room = 64 + dice.below(4000) as usize;
            let ran = store
                .run(&mut answers, &script[at..], &mut lines[..room.max(2600)])
                .expect("a well-formed store");
            assert!(ran.done > 0, "no line fits");
            said.extend(&lines[..ran.written]);
            at += ran.done;
            runs += 1;
        }
        bytes += said.len() as u64;
        if said != meant.as_bytes() {
            let (ours, table) = (String::from_utf8_lossy(&said), meant);
            let k = ours.lines().zip(table.lines()).position(|(a, b)| a != b);
            eprintln!("after {done} records: line {k:?} of a piece differs: {ops:?}");
            std::process::exit(1);
        }
        if early == 0 && done > 100_000 {
            early = held();
        }
    }
    println!(
        "{done} records in {runs} runs, {bytes} line bytes, each as the table's; held {early} KiB after 100,000 records, {} KiB at the end",
        held()
    );
}

//! The smallest script of each entry of docs/DIFFERENCES.md: what the published matrix does in this build, and what ours says to the last operation.
use compare::table::line;
use drive::ops::Op;
use drive::{ours, theirs};
use std::panic::{catch_unwind, AssertUnwindSafe};

const SCRIPTS: [(&str, &str); 15] = [
    ("ON without a one", "MAKE 2 2 0 2; ON"),
    ("ON, a one in a home column at or past the height", "MAKE 1 2 0 2; SET 0 1 1; ON"),
    (
        "FREEZE of a home column at or past the height",
        "MAKE 1 3 1 2; SET 0 0 1; ON; FREEZE 1",
    ),
    (
        "COLONES of a home column at or past the height",
        "MAKE 1 3 1 2; SET 0 0 1; ON; COLONES 1 0 1",
    ),
    ("the first FREEZE from n = 0", "MAKE 2 2 0 2; SET 0 0 1; ON; FREEZE 1"),
    (
        "SWAPC with its first column in the tail",
        "MAKE 1 2 1 2; SET 0 0 1; SWAPC 1 0; GET 0 0",
    ),
    ("RESIZE to a larger width", "MAKE 1 1 0 1; RESIZE 1 2"),
    ("GET past the width after a shrink", "MAKE 1 3 0 3; SET 0 0 1; RESIZE 1 1; GET 0 2"),
    (
        "SWAPC past the width after a shrink",
        "MAKE 2 3 0 3; SET 0 0 1; RESIZE 2 2; SWAPC 2 0",
    ),
    (
        "COLONES past the width after a shrink",
        "MAKE 3 3 0 3; SET 0 0 1; RESIZE 3 2; ON; COLONES 2 0 3",
    ),
    (
        "COLONES of a spent column",
        "MAKE 2 2 0 2; SET 0 0 1; SET 1 0 1; ON; ADD 0 1 0; COLONES 0 0 2",
    ),
    (
        "COLONES of a column spent before ON",
        "MAKE 2 2 0 2; SET 0 0 1; SET 1 0 1; ON; ADD 0 1 0; ON; COLONES 0 0 2",
    ),
    (
        "COLONES of a tail column",
        "MAKE 3 3 1 3; SET 0 1 1; ON; FREEZE 1; SET 0 1 0; COLONES 1 0 3",
    ),
    ("ITER from 65,536", "MAKE 1 1 0 1; SET 0 0 1; ITER 0 65536 1"),
    (
        "COLONES by rows that were exchanged",
        "MAKE 2 2 0 2; SET 0 0 1; SET 1 0 1; SWAPR 0 1; ON; COLONES 0 0 2",
    ),
];

fn op(text: &str) -> Op {
    let words: Vec<&str> = text.split_whitespace().collect();
    let p: Vec<u32> = words[1..].iter().map(|word| word.parse().unwrap()).collect();
    match words[0] {
        "MAKE" => Op::Make(p[0], p[1], p[2], p[3]),
        "SET" => Op::Set(p[0], p[1], p[2] as u8),
        "SWAPR" => Op::SwapR(p[0], p[1]),
        "SWAPC" => Op::SwapC(p[0], p[1]),
        "ADD" => Op::Add(p[0], p[1], p[2]),
        "ON" => Op::On,
        "FREEZE" => Op::Freeze(p[0]),
        "RESIZE" => Op::Resize(p[0], p[1]),
        "GET" => Op::Get(p[0], p[1]),
        "WORDS" => Op::Words(p[0], p[1]),
        "ITER" => Op::Iter(p[0], p[1], p[2]),
        "COLONES" => Op::ColOnes(p[0], p[1], p[2]),
        name => panic!("{name}"),
    }
}

fn main() {
    std::panic::set_hook(Box::new(|_| {}));
    let build = if cfg!(debug_assertions) { "debug" } else { "release" };
    for (title, script) in SCRIPTS {
        let mut room = ours::Room::new(4, 4, 4, 16, 4);
        let mut store = room.store();
        let mut matrix = theirs::new();
        let (mut said, mut theirs_said) = (String::new(), String::new());
        for text in script.split("; ") {
            said = line(&ours::call(&mut store, op(text), &mut [0; 8]));
            if !theirs_said.starts_with("stops") {
                let told = catch_unwind(AssertUnwindSafe(|| match op(text) {
                    Op::ColOnes(c, a, b) => theirs::column_rows(&matrix, c, a, b),
                    op => theirs::call(&mut matrix, op),
                }));
                theirs_said = told.map_or(format!("stops at {text}"), |list| line(&Ok(list)).trim().to_string());
            }
        }
        println!("{title} | {script} | published in {build}: {theirs_said} | ours: {}", said.trim());
    }
}

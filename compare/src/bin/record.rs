//! Records what the published matrix answers, as a script and its lines, for the gate to replay with no Rust at hand.
//!
//!     compare/record SCRIPT LINES
//!
//! Only operations that ours accepts, where docs/DIFFERENCES.md lists nothing. Each line comes from the published matrix alone: WORDS' bits packed by 01's rule,
//! COLONES' list sorted. SIZE is left out: the published matrix does not tell n. The script ends with MAKE 0 0 0 0, which leaves the store as it began.
use compare::differences::{in_domain, listed};
use compare::lists;
use compare::table::{line, Table, PROGRAM};
use drive::ops::{records, Dice, Op};
use drive::theirs;

fn packed(bits: &[u64]) -> Vec<u64> {
    let padding = (64 - bits.len() % 64) % 64;
    let mut words = vec![0; bits.len().div_ceil(64)];
    for (d, bit) in bits.iter().enumerate() {
        words[(padding + d) / 64] |= bit << ((padding + d) % 64);
    }
    words
}

fn main() {
    let files: Vec<String> = std::env::args().skip(1).collect();
    assert!(files.len() == 2, "record SCRIPT LINES");
    let (mut script, mut lines) = (vec![], String::new());
    for k in 0..40 {
        let mut dice = Dice::new(5000 + k);
        let (h, w) = if k % 8 == 7 {
            (100, 90)
        } else {
            (4 + dice.below(16), 2 + dice.below(14))
        };
        let n = if k % 8 == 6 { w.min(1 + dice.below(3)) } else { 1 + dice.below(2) };
        let (h, w, n) = if k % 8 == 5 {
            (6, 70 + n, 62 + dice.below(4))
        } else {
            (h, w, n.min(w))
        };
        let mut table = Table::new(PROGRAM);
        let mut matrix = theirs::new();
        let mut flagged = vec![false; w as usize];
        let filling = 1 + 3 * h;
        for step in 0..filling + 90 {
            let ops = match step {
                0 => vec![Op::Make(h, w, n, (8192 / h).min(w))],
                _ if step < filling => vec![Op::Set(dice.below(h), dice.below(w), 1)],
                _ if k % 2 == 0 => lists::solver(&table, step - filling, &mut dice),
                _ => vec![lists::any(&table, &mut dice)],
            };
            for op in ops {
                let mut after = table.clone();
                let again = matches!(op, Op::Make(..)) && step > 0;
                if again || matches!(op, Op::Size) || !in_domain(op) || after.call(op).is_err() || listed(&table, op, &flagged).is_some() {
                    continue;
                }
                match op {
                    Op::Add(_, s, 0) if table.on => flagged[table.ones(s)[0] as usize] = true,
                    Op::SwapC(i, j) => flagged.swap(i as usize, j as usize),
                    _ => {}
                }
                let told = theirs::call(&mut matrix, op);
                let told = if matches!(op, Op::Words(..)) { packed(&told) } else { told };
                script.extend(records(&[op]));
                lines += &line(&Ok(told));
                table = after;
            }
        }
    }
    script.extend(records(&[Op::Make(0, 0, 0, 0)]));
    lines += "ok\n";
    std::fs::write(&files[0], &script).unwrap();
    std::fs::write(&files[1], &lines).unwrap();
    println!("{} records, {} bytes", lines.lines().count(), script.len());
}

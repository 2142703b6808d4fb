//! docs/DIFFERENCES.md as conditions: where the published matrix may stop, or answer otherwise, on what ours accepts.
use crate::table::Table;
use drive::ops::Op;

/// Where the published matrix may stop on what ours accepts. `flagged` are the columns that were ever spent since MAKE, which the published one never
/// forgets in a debug build.
pub fn listed(t: &Table, op: Op, flagged: &[bool]) -> Option<&'static str> {
    match op {
        Op::On => {
            let homes: Vec<u32> = (0..t.h).flat_map(|r| t.ones(r)).map(|c| t.homes[c as usize]).collect();
            if homes.is_empty() {
                Some("ON without a one")
            } else if homes.iter().any(|z| *z >= t.h) {
                Some("ON with a one in a home column at or past the height")
            } else {
                None
            }
        }
        Op::Freeze(c) | Op::ColOnes(c, ..) if t.homes[c as usize] >= t.h => {
            Some("FREEZE or COLONES of a home column at or past the height")
        }
        Op::Freeze(_) if t.n == 0 => Some("FREEZE from n = 0"),
        Op::Freeze(_) if t.h == 0 => Some("FREEZE with no row"),
        Op::ColOnes(c, ..) if cfg!(debug_assertions) && flagged[c as usize] => Some("COLONES of a column once spent, in debug"),
        _ => None,
    }
}

/// Whether the answers are to be alike: not where get_row_iter cuts its start to 16 bits.
pub fn in_domain(op: Op) -> bool {
    !matches!(op, Op::Iter(_, a, _) if a > 65_535)
}

//! Whether a store is well-formed, bullet by bullet of 01, and the plain table that a well-formed one stands for. Slow and plain: it judges the damage.
use crate::table::{Room, Table};
use clatterthaw::Head;
use drive::ours;

/// `f` and `g` are inverse to each other over 0..k.
fn inverse(f: &[u64], g: &[u64], k: usize) -> bool {
    f.len() >= k
        && g.len() >= k
        && (0..k).all(|i| (f[i] as usize) < k && g[f[i] as usize] as usize == i)
        && (0..k).all(|i| (g[i] as usize) < k && f[g[i] as usize] as usize == i)
}

fn zero_from<T: Copy + Into<u64>>(list: &[T], k: usize) -> bool {
    list.iter().skip(k).all(|x| (*x).into() == 0)
}

fn rising(list: &[u64]) -> bool {
    list.windows(2).all(|two| two[0] < two[1])
}

fn wide<T: Copy + Into<u64>>(list: &[T]) -> Vec<u64> {
    list.iter().map(|x| (*x).into()).collect()
}

/// The list of home row y.
fn row(head: &Head, room: &ours::Room, y: usize) -> Vec<u64> {
    let at = y * head.slots as usize;
    wide(&room.slots[at..at + room.counts[y] as usize])
}

pub fn well_formed(head: &Head, room: &ours::Room) -> bool {
    let (h, w, n, slots, made) = (
        head.h as usize,
        head.w as usize,
        head.n as usize,
        head.slots as usize,
        head.made as usize,
    );
    let per_row = n.div_ceil(64);
    // "head numbers keep the limits, buffers are long enough"
    if h > 65_535 || made > 65_535 || w > made || n > w || slots > 65_535 || head.on > 1 {
        return false;
    }
    if room.slots.len() < h * slots
        || room.counts.len() < h
        || room.marks.len() < made
        || room.starts.len() < made + 1
        || room.words.len() < h * per_row
    {
        return false;
    }
    // the maps
    let (column_homes, column_logicals) = (wide(&room.column_homes), wide(&room.column_logicals));
    if !inverse(&wide(&room.row_homes), &wide(&room.row_logicals), h) || !inverse(&column_homes, &column_logicals, made) {
        return false;
    }
    // "every unused place is zero"
    if !zero_from(&room.slots, h * slots)
        || !zero_from(&room.counts, h)
        || !zero_from(&room.row_homes, h)
        || !zero_from(&room.row_logicals, h)
        || !zero_from(&room.column_homes, made)
        || !zero_from(&room.column_logicals, made)
        || !zero_from(&room.marks, made)
        || !zero_from(&room.starts, made + 1)
        || !zero_from(&room.words, h * per_row)
    {
        return false;
    }
    // the rows
    for y in 0..h {
        let count = room.counts[y] as usize;
        if count > slots {
            return false;
        }
        let list = row(head, room, y);
        if !rising(&list)
            || list
                .iter()
                .any(|z| *z as usize >= made || column_logicals[*z as usize] as usize >= w - n)
        {
            return false;
        }
        if room.slots[y * slots + count..(y + 1) * slots].iter().any(|x| *x != 0) {
            return false;
        }
        // "Padding bits are zero"
        let padding = (64 - n % 64) % 64;
        if (0..padding).any(|position| room.words[y * per_row + position / 64] >> (position % 64) & 1 == 1) {
            return false;
        }
    }
    // "Index off: every index start and entry is zero, all marks exact"
    if head.on == 0 {
        return zero_from(&room.starts, 0) && zero_from(&room.entries, 0) && zero_from(&room.marks, 0);
    }
    // "row lists stand by home column with no gap between them"
    let starts: Vec<usize> = room.starts.iter().take(made + 1).map(|x| usize::try_from(*x).unwrap()).collect();
    if starts[0] != 0
        || starts.windows(2).any(|two| two[0] > two[1])
        || starts[made] > room.entries.len()
        || !zero_from(&room.entries, starts[made])
    {
        return false;
    }
    for z in 0..made {
        let list = wide(&room.entries[starts[z]..starts[z + 1]]);
        // "each holds home rows below h, rising"
        if !rising(&list) || list.iter().any(|y| *y as usize >= h) || room.marks[z] > 1 {
            return false;
        }
        // "a sparse column's list holds every home row with a one there, and a sparse column marked exact lists those rows only"
        if (column_logicals[z] as usize) < w - n {
            let ones: Vec<u64> = (0..h)
                .filter(|y| row(head, room, *y).contains(&(z as u64)))
                .map(|y| y as u64)
                .collect();
            if ones.iter().any(|y| !list.contains(y)) || (room.marks[z] == 0 && list != ones) {
                return false;
            }
        }
    }
    true
}

/// What is lent, as the table counts it.
pub fn room_of(room: &ours::Room, answers: usize) -> Room {
    Room {
        slots: room.slots.len(),
        rows: room.counts.len().min(room.row_homes.len()).min(room.row_logicals.len()),
        columns: room.column_homes.len().min(room.column_logicals.len()).min(room.marks.len()),
        starts: room.starts.len(),
        entries: room.entries.len(),
        words: room.words.len(),
        answers,
    }
}

/// Buffers of that room, all zero.
pub fn lend(room: &Room) -> ours::Room {
    ours::Room {
        slots: vec![0; room.slots],
        counts: vec![0; room.rows],
        row_homes: vec![0; room.rows],
        row_logicals: vec![0; room.rows],
        column_homes: vec![0; room.columns],
        column_logicals: vec![0; room.columns],
        marks: vec![0; room.columns],
        starts: vec![0; room.starts],
        entries: vec![0; room.entries],
        words: vec![0; room.words],
    }
}

/// The table that a well-formed store stands for, with the room that it is lent.
pub fn table_of(head: &Head, room: &ours::Room, answers: usize) -> Table {
    let (h, w, n) = (head.h as usize, head.w as usize, head.n as usize);
    let mut bits = vec![vec![false; w]; h];
    let padding = (64 - n % 64) % 64;
    for r in 0..h {
        let y = room.row_homes[r] as usize;
        for z in row(head, room, y) {
            bits[r][room.column_logicals[z as usize] as usize] = true;
        }
        for d in 0..n {
            let position = padding + d;
            bits[r][w - n + d] = room.words[y * n.div_ceil(64) + position / 64] >> (position % 64) & 1 == 1;
        }
    }
    Table {
        room: room_of(room, answers),
        h: head.h,
        w: head.w,
        n: head.n,
        slots: head.slots,
        on: head.on == 1,
        bits,
        spent: (0..w).map(|c| room.marks[room.column_homes[c] as usize] == 1).collect(),
        homes: (0..w).map(|c| room.column_homes[c] as u32).collect(),
    }
}

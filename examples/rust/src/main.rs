//! A small elimination over the store, from Rust: three equations in three unknowns and a right-hand side, brought to the identity. The right-hand side is
//! the tail, so that what is done to a row is done to its side too.
use clatterthaw::{Buffers, Refusal, Store};

const ROWS: usize = 3;
const COLUMNS: usize = 4;
const SLOTS: usize = 4;
const CELLS: [[u8; COLUMNS]; ROWS] = [[0, 1, 1, 1], [1, 1, 0, 0], [1, 1, 1, 1]];

/// One row a line, the tail after a bar.
fn show(store: &Store, title: &str) -> Result<(), Refusal> {
    println!("{title}");
    let size = store.size()?;
    for r in 0..size.h {
        let mut line = String::from(" ");
        for c in 0..size.w {
            if c == size.w - size.n {
                line.push_str(" |");
            }
            line.push_str(if store.get(r, c)? { " 1" } else { " 0" });
        }
        println!("{line}");
    }
    Ok(())
}

/// Brings the sparse columns to the identity; whether there was a row for each.
fn eliminate(store: &mut Store) -> Result<bool, Refusal> {
    let size = store.size()?;
    for c in 0..size.w - size.n {
        let mut r = c;
        while r < size.h && !store.get(r, c)? {
            r += 1;
        }
        if r == size.h {
            return Ok(false);
        }
        store.swap_rows(r, c)?;
        for d in 0..size.h {
            if d != c && store.get(d, c)? {
                store.add(d, c, 0)?;
            }
        }
    }
    Ok(true)
}

fn main() -> Result<(), Refusal> {
    let mut slots = [0; ROWS * SLOTS];
    let mut counts = [0; ROWS];
    let (mut row_homes, mut row_logicals) = ([0; ROWS], [0; ROWS]);
    let (mut column_homes, mut column_logicals) = ([0; COLUMNS], [0; COLUMNS]);
    let (mut marks, mut starts, mut entries) = ([0; COLUMNS], [0; COLUMNS + 1], [0; ROWS * SLOTS]);
    let mut words = [0; ROWS];
    let mut store = Store::new(Buffers {
        slots: &mut slots,
        counts: &mut counts,
        row_homes: &mut row_homes,
        row_logicals: &mut row_logicals,
        column_homes: &mut column_homes,
        column_logicals: &mut column_logicals,
        marks: &mut marks,
        starts: &mut starts,
        entries: &mut entries,
        words: &mut words,
    });
    store.make(ROWS as u32, COLUMNS as u32, 1, SLOTS as u32)?;
    for (r, row) in CELLS.iter().enumerate() {
        for (c, cell) in row.iter().enumerate() {
            if *cell == 1 {
                store.set(r as u32, c as u32, true)?;
            }
        }
    }
    show(&store, "three equations:")?;
    if !eliminate(&mut store)? {
        println!("a column has no row");
    }
    show(&store, "solved:")?;

    // a refusal is an error, and changes nothing
    println!("row 3 of three: {:?}", store.set(3, 0, true).unwrap_err());
    let (head, buffers) = store.into_parts();
    buffers.marks[0] = 9;
    let mut store = Store::from_parts(head, buffers);
    println!("a damaged store: {:?}", store.set(0, 0, true).unwrap_err());
    Ok(())
}

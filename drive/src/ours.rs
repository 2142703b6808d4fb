//! Our side: a run over script records, the store's buffers freshly made.
use crate::ops::Op;
use clatterthaw::{Buffers, Refusal, Store};

/// What is lent.
#[derive(Clone, PartialEq, Eq)]
pub struct Room {
    pub slots: Vec<u16>,
    pub counts: Vec<u16>,
    pub row_homes: Vec<u32>,
    pub row_logicals: Vec<u32>,
    pub column_homes: Vec<u16>,
    pub column_logicals: Vec<u16>,
    pub marks: Vec<u8>,
    pub starts: Vec<u64>,
    pub entries: Vec<u32>,
    pub words: Vec<u64>,
}

impl Room {
    /// Room for h by w with `slots` a row, `ones` in the index and a tail that grows to `tail` columns.
    pub fn new(h: u32, w: u32, slots: u32, ones: usize, tail: u32) -> Room {
        let (rows, columns) = (h as usize, w as usize);
        Room {
            slots: vec![0; rows * slots as usize],
            counts: vec![0; rows],
            row_homes: vec![0; rows],
            row_logicals: vec![0; rows],
            column_homes: vec![0; columns],
            column_logicals: vec![0; columns],
            marks: vec![0; columns],
            starts: vec![0; columns + 1],
            entries: vec![0; ones],
            words: vec![0; rows * (tail as usize).div_ceil(64)],
        }
    }

    pub fn bytes(&self) -> usize {
        self.slots.len() * 2
            + self.counts.len() * 2
            + (self.row_homes.len() + self.row_logicals.len()) * 4
            + (self.column_homes.len() + self.column_logicals.len()) * 2
            + self.marks.len()
            + self.starts.len() * 8
            + self.entries.len() * 4
            + self.words.len() * 8
    }

    /// The 0 by 0 store over this room.
    pub fn store(&mut self) -> Store<'_> {
        Store::new(self.buffers())
    }

    pub fn buffers(&mut self) -> Buffers<'_> {
        Buffers {
            slots: &mut self.slots,
            counts: &mut self.counts,
            row_homes: &mut self.row_homes,
            row_logicals: &mut self.row_logicals,
            column_homes: &mut self.column_homes,
            column_logicals: &mut self.column_logicals,
            marks: &mut self.marks,
            starts: &mut self.starts,
            entries: &mut self.entries,
            words: &mut self.words,
        }
    }
}

/// One single call: what it answers, or the number of its refusal.
pub fn call(store: &mut Store, op: Op, answers: &mut [u32]) -> Result<Vec<u64>, u32> {
    let wide = |list: &[u32]| list.iter().map(|x| *x as u64).collect::<Vec<_>>();
    let none = |_| vec![];
    let told: Result<Vec<u64>, Refusal> = match op {
        Op::Make(h, w, n, slots) => store.make(h, w, n, slots).map(none),
        Op::Set(r, c, v) => store.set(r, c, v != 0).map(none),
        Op::SwapR(i, j) => store.swap_rows(i, j).map(none),
        Op::SwapC(i, j) => store.swap_columns(i, j).map(none),
        Op::Add(d, s, start) => store.add(d, s, start).map(none),
        Op::On => store.on().map(none),
        Op::Off => store.off().map(none),
        Op::Freeze(c) => store.freeze(c).map(none),
        Op::Resize(h, w) => store.resize(h, w).map(none),
        Op::Get(r, c) => store.get(r, c).map(|x| vec![x as u64]),
        Op::Count(r, a, b) => store.count(r, a, b).map(|x| vec![x as u64]),
        Op::Words(r, a) => store.words(r, a).map(<[u64]>::to_vec),
        Op::TailOnes(r, a) => store.tail_ones(answers, r, a).map(wide),
        Op::Iter(r, a, b) => store.iter(answers, r, a, b).map(wide),
        Op::ColOnes(c, a, b) => store.column_ones(answers, c, a, b).map(wide),
        Op::Size => store.size().map(|s| vec![s.h as u64, s.w as u64, s.n as u64]),
    };
    told.map_err(|refusal| refusal as u32)
}

/// Runs the records, all of them, and sees that none is refused.
pub fn run(store: &mut Store, records: &[u8], answers: &mut [u32], lines: &mut [u8]) {
    let mut done = 0;
    while done < records.len() {
        let ran = store.run(answers, &records[done..], lines).expect("a well-formed store");
        assert!(ran.done > 0, "a line longer than all line bytes");
        done += ran.done;
    }
}

/// The same, and every line is held to be no refusal.
pub fn run_checked(store: &mut Store, records: &[u8], answers: &mut [u32], lines: &mut [u8]) {
    let mut done = 0;
    while done < records.len() {
        let ran = store.run(answers, &records[done..], lines).expect("a well-formed store");
        assert!(ran.done > 0, "a line longer than all line bytes");
        for line in lines[..ran.written].split(|b| *b == b'\n') {
            assert!(!line.starts_with(b"no"), "refused: {}", String::from_utf8_lossy(line));
        }
        done += ran.done;
    }
}

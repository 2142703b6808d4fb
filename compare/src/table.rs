//! The plain table, written from document 01 alone: bits by logical row and column, a mark and a home for each logical column, and what is lent. It judges
//! every answer and every refusal but 1, which no table can have.
use drive::ops::Op;

const LIMIT: u32 = 65535;

/// What is lent, in elements.
#[derive(Clone, Copy, Debug)]
pub struct Room {
    pub slots: usize,
    pub rows: usize,
    pub columns: usize,
    pub starts: usize,
    pub entries: usize,
    pub words: usize,
    pub answers: usize,
}

#[derive(Clone)]
pub struct Table {
    pub room: Room,
    pub h: u32,
    pub w: u32,
    pub n: u32,
    pub slots: u32,
    pub on: bool,
    pub bits: Vec<Vec<bool>>,
    pub spent: Vec<bool>,
    pub homes: Vec<u32>,
}

pub type Answer = Result<Vec<u64>, u32>;

/// "One line per record, decimal: `ok`, `ok` with numbers, or `no` and the number"
pub fn line(answer: &Answer) -> String {
    match answer {
        Ok(list) => list.iter().fold(String::from("ok"), |line, x| format!("{line} {x}")) + "\n",
        Err(number) => format!("no {number}\n"),
    }
}

/// Each operation asks in rising order: "if several apply, the smallest number is given".
fn refuse(number: u32, when: bool) -> Result<(), u32> {
    if when {
        Err(number)
    } else {
        Ok(())
    }
}

/// "A row has ceil(n/64) tail words"
fn words_for(n: u32) -> usize {
    (n as usize).div_ceil(64)
}

/// What the script program lends.
pub const PROGRAM: Room = Room {
    slots: 8192,
    rows: 256,
    columns: 256,
    starts: 257,
    entries: 4096,
    words: 1024,
    answers: 256,
};

impl Table {
    /// "a 0 by 0 store"
    pub fn new(room: Room) -> Table {
        Table {
            room,
            h: 0,
            w: 0,
            n: 0,
            slots: 0,
            on: false,
            bits: vec![],
            spent: vec![],
            homes: vec![],
        }
    }

    /// "the last n are the tail, the w-n before it are sparse"
    pub fn edge(&self) -> u32 {
        self.w - self.n
    }

    /// The sparse columns in which row r has a one.
    pub fn ones(&self, r: u32) -> Vec<u32> {
        (0..self.edge()).filter(|c| self.bits[r as usize][*c as usize]).collect()
    }

    fn listed(&self, list: Vec<u64>) -> Answer {
        refuse(15, list.len() > self.room.answers)?;
        Ok(list)
    }

    pub fn call(&mut self, op: Op) -> Answer {
        match op {
            Op::Make(h, w, n, slots) => {
                refuse(2, h > LIMIT || w > LIMIT || n > w || slots > LIMIT)?;
                let (rows, columns) = (h as usize, w as usize);
                let room = self.room;
                refuse(
                    3,
                    rows * slots as usize > room.slots
                        || rows > room.rows
                        || columns > room.columns
                        || columns + 1 > room.starts
                        || rows * words_for(n) > room.words,
                )?;
                *self = Table {
                    room,
                    h,
                    w,
                    n,
                    slots,
                    on: false,
                    bits: vec![vec![false; columns]; rows],
                    spent: vec![false; columns],
                    homes: (0..w).collect(),
                };
                Ok(vec![])
            }
            Op::Set(r, c, v) => {
                refuse(4, r >= self.h)?;
                refuse(5, c >= self.w)?;
                let sparse = c < self.edge();
                refuse(9, self.on && sparse)?;
                let new = sparse && v != 0 && !self.bits[r as usize][c as usize];
                refuse(12, new && self.ones(r).len() + 1 > self.slots as usize)?;
                self.bits[r as usize][c as usize] = v != 0;
                Ok(vec![])
            }
            Op::SwapR(i, j) => {
                refuse(4, i >= self.h || j >= self.h)?;
                self.bits.swap(i as usize, j as usize);
                Ok(vec![])
            }
            Op::SwapC(i, j) => {
                refuse(5, i >= self.w || j >= self.w)?;
                refuse(6, i >= self.edge() || j >= self.edge())?;
                for row in &mut self.bits {
                    row.swap(i as usize, j as usize);
                }
                self.spent.swap(i as usize, j as usize);
                self.homes.swap(i as usize, j as usize);
                Ok(vec![])
            }
            Op::Add(d, s, start) => {
                refuse(4, d >= self.h || s >= self.h)?;
                refuse(6, start != 0 && start != self.edge())?;
                refuse(7, d == s)?;
                let single = self.on && start == 0;
                let source = self.ones(s);
                if single {
                    refuse(10, source.len() != 1 || !self.bits[d as usize][source[0] as usize])?;
                }
                let mut after = self.bits[d as usize].clone();
                for c in start as usize..self.w as usize {
                    after[c] ^= self.bits[s as usize][c];
                }
                let left = after[..self.edge() as usize].iter().filter(|b| **b).count();
                refuse(12, left > self.slots as usize)?;
                if single {
                    self.spent[source[0] as usize] = true;
                }
                self.bits[d as usize] = after;
                Ok(vec![])
            }
            Op::On => {
                let all: usize = (0..self.h).map(|r| self.ones(r).len()).sum();
                refuse(14, all > self.room.entries)?;
                self.on = true;
                self.spent.fill(false);
                Ok(vec![])
            }
            Op::Off => {
                self.on = false;
                self.spent.fill(false);
                Ok(vec![])
            }
            Op::Freeze(c) => {
                refuse(5, c >= self.w)?;
                refuse(6, c as i64 != self.edge() as i64 - 1)?;
                refuse(9, !self.on)?;
                refuse(13, self.h as usize * words_for(self.n + 1) > self.room.words)?;
                self.n += 1;
                Ok(vec![])
            }
            Op::Resize(h, w) => {
                refuse(8, h > self.h || w > self.w || (w < self.w && self.w - w < self.n))?;
                refuse(9, self.on)?;
                if w != self.w {
                    self.n = 0;
                }
                self.h = h;
                self.w = w;
                self.bits.truncate(h as usize);
                for row in &mut self.bits {
                    row.truncate(w as usize);
                }
                self.spent.truncate(w as usize);
                self.homes.truncate(w as usize);
                Ok(vec![])
            }
            Op::Get(r, c) => {
                refuse(4, r >= self.h)?;
                refuse(5, c >= self.w)?;
                Ok(vec![self.bits[r as usize][c as usize] as u64])
            }
            Op::Count(r, a, b) => {
                refuse(4, r >= self.h)?;
                refuse(6, b > self.edge())?;
                Ok(vec![self.ones(r).iter().filter(|c| a <= **c && **c < b).count() as u64])
            }
            Op::Words(r, a) => {
                refuse(4, r >= self.h)?;
                refuse(6, a != self.edge())?;
                let padding = (64 - self.n % 64) % 64;
                let mut words = vec![0; words_for(self.n)];
                for d in 0..self.n {
                    if self.bits[r as usize][(self.edge() + d) as usize] {
                        let position = (padding + d) as usize;
                        words[position / 64] |= 1 << (position % 64);
                    }
                }
                Ok(words)
            }
            Op::TailOnes(r, a) => {
                refuse(4, r >= self.h)?;
                refuse(6, a != self.edge() || self.n == 0)?;
                self.listed(
                    (self.edge()..self.w)
                        .filter(|c| self.bits[r as usize][*c as usize])
                        .map(u64::from)
                        .collect(),
                )
            }
            Op::Iter(r, a, b) => {
                refuse(4, r >= self.h)?;
                refuse(6, b > self.edge())?;
                let mut list: Vec<u32> = self.ones(r).into_iter().filter(|c| a <= *c && *c < b).collect();
                list.sort_by_key(|c| self.homes[*c as usize]);
                self.listed(list.into_iter().map(u64::from).collect())
            }
            Op::ColOnes(c, a, b) => {
                refuse(5, c >= self.w)?;
                refuse(6, c >= self.edge())?;
                refuse(9, !self.on)?;
                refuse(11, self.spent[c as usize])?;
                self.listed(
                    (a..b.min(self.h))
                        .filter(|r| self.bits[*r as usize][c as usize])
                        .map(u64::from)
                        .collect(),
                )
            }
            Op::Size => Ok(vec![self.h as u64, self.w as u64, self.n as u64]),
        }
    }
}

//! The sparse matrix store under a RaptorQ solver, whose every function is proved to meet its contract: a head, and ten buffers that the caller lends.
//! No heap, no dependencies.
//!
//! A [`Store`] borrows its buffers and keeps the head beside them, so that one store's head cannot be handed over another's buffers. Each call checks the
//! whole store and answers, or refuses with a [`Refusal`] and changes nothing; [`Store::run`] checks once for a whole list of records.
#![no_std]
#![warn(missing_docs)]

mod raw;

pub use raw::Head;

/// A call of the library over a store: its head, then a pointer and a length for each buffer, then the call's own words.
macro_rules! over {
    ($store:ident, $call:ident, $pointer:ident $(, $word:expr)*) => {
        raw::$call(
            $store.head,
            $store.lent.slots.$pointer(),
            $store.lent.slots.len(),
            $store.lent.counts.$pointer(),
            $store.lent.counts.len(),
            $store.lent.row_homes.$pointer(),
            $store.lent.row_homes.len(),
            $store.lent.row_logicals.$pointer(),
            $store.lent.row_logicals.len(),
            $store.lent.column_homes.$pointer(),
            $store.lent.column_homes.len(),
            $store.lent.column_logicals.$pointer(),
            $store.lent.column_logicals.len(),
            $store.lent.marks.$pointer(),
            $store.lent.marks.len(),
            $store.lent.starts.$pointer(),
            $store.lent.starts.len(),
            $store.lent.entries.$pointer(),
            $store.lent.entries.len(),
            $store.lent.words.$pointer(),
            $store.lent.words.len(),
            $($word),*
        )
    };
}

/// Why a call is refused, by 01's numbers.
#[derive(Clone, Copy, Debug, PartialEq, Eq)]
#[repr(u32)]
pub enum Refusal {
    /// The store is not well-formed (all but MAKE).
    Damaged = 1,
    /// MAKE outside the limits.
    Size = 2,
    /// MAKE, and a buffer is too short.
    Buffers = 3,
    /// A row past the height.
    Row = 4,
    /// A column past the width.
    Column = 5,
    /// A column or an edge on the wrong side of the tail.
    Side = 6,
    /// ADD of a row to itself.
    Same = 7,
    /// RESIZE that grows, or drops a part of the tail.
    Shrink = 8,
    /// Index on: RESIZE, SET in a sparse column; index off: FREEZE, COLONES.
    Phase = 9,
    /// ADD from 0 with the index on: not exactly one sparse one in the source, or row d lacks it.
    Single = 10,
    /// COLONES of a spent column.
    Spent = 11,
    /// No slot left in the row.
    Slots = 12,
    /// No tail words left.
    Words = 13,
    /// No index entries left.
    Entries = 14,
    /// The list is longer than the answer buffer.
    Answer = 15,
}

impl Refusal {
    /// The refusal of a number, and none for 0. The library gives no number above 15 but in a run's lines.
    fn of(no: u32) -> Result<(), Refusal> {
        use Refusal::*;
        match no {
            0 => Ok(()),
            2 => Err(Size),
            3 => Err(Buffers),
            4 => Err(Row),
            5 => Err(Column),
            6 => Err(Side),
            7 => Err(Same),
            8 => Err(Shrink),
            9 => Err(Phase),
            10 => Err(Single),
            11 => Err(Spent),
            12 => Err(Slots),
            13 => Err(Words),
            14 => Err(Entries),
            15 => Err(Answer),
            _ => Err(Damaged),
        }
    }
}

/// The ten buffers that a store works in. For h rows, w columns with n in the tail and s slots a row: h*s slots, h counts, row homes and row logicals, w
/// column homes, column logicals and marks, w+1 starts, h*ceil(n/64) words (more where columns are to be frozen), and an entry for each one that is indexed.
pub struct Buffers<'a> {
    /// The rows' lists.
    pub slots: &'a mut [u16],
    /// How many places each list has.
    pub counts: &'a mut [u16],
    /// Where each logical row is kept.
    pub row_homes: &'a mut [u32],
    /// Which logical row is kept at each home.
    pub row_logicals: &'a mut [u32],
    /// Where each logical column is kept.
    pub column_homes: &'a mut [u16],
    /// Which logical column is kept at each home.
    pub column_logicals: &'a mut [u16],
    /// Whether the list of each column is spent.
    pub marks: &'a mut [u8],
    /// Where the list of each column starts in the index.
    pub starts: &'a mut [u64],
    /// The index's lists.
    pub entries: &'a mut [u32],
    /// The rows' tail words.
    pub words: &'a mut [u64],
}

/// Height, width and tail.
#[derive(Clone, Copy, Debug, PartialEq, Eq)]
pub struct Size {
    /// Rows.
    pub h: u32,
    /// Columns.
    pub w: u32,
    /// The last columns, which are the tail.
    pub n: u32,
}

/// How far a run came.
#[derive(Clone, Copy, Debug, PartialEq, Eq)]
pub struct Ran {
    /// Record bytes done.
    pub done: usize,
    /// Line bytes written.
    pub written: usize,
}

/// A matrix: its head and its buffers.
pub struct Store<'a> {
    head: raw::Head,
    lent: Buffers<'a>,
}

impl<'a> Store<'a> {
    /// The largest height.
    pub const MAX_HEIGHT: u32 = 65535;
    /// The largest width.
    pub const MAX_WIDTH: u32 = 65535;
    /// The most slots of a row.
    pub const MAX_SLOTS: u32 = 65535;

    /// The 0 by 0 store over these buffers. Until MAKE it is well-formed only if all of them are zero.
    pub fn new(lent: Buffers<'a>) -> Store<'a> {
        Store {
            head: raw::Head::default(),
            lent,
        }
    }

    /// A store kept apart: a head, and the buffers that it was over. Whatever they hold, each call checks them.
    pub fn from_parts(head: Head, lent: Buffers<'a>) -> Store<'a> {
        Store { head, lent }
    }

    /// Takes the store apart, to be kept or lent anew.
    pub fn into_parts(self) -> (Head, Buffers<'a>) {
        (self.head, self.lent)
    }

    /// The head's numbers as they stand.
    pub fn head(&self) -> Head {
        self.head
    }

    fn keep(&mut self, x: raw::Changed) -> Result<(), Refusal> {
        self.head = x.head;
        Refusal::of(x.no)
    }

    /// MAKE: an h by w store whose last n columns are the tail, all zero, with `per_row` slots for each row; it asks for no store before it.
    pub fn make(&mut self, h: u32, w: u32, n: u32, per_row: u32) -> Result<(), Refusal> {
        // SAFETY: each pointer and length is a slice that this store borrows alone.
        let x = unsafe { over!(self, clatterthaw_make, as_mut_ptr, h, w, n, per_row) };
        self.keep(x)
    }

    /// SET: cell r, c becomes one, or zero.
    pub fn set(&mut self, r: u32, c: u32, v: bool) -> Result<(), Refusal> {
        // SAFETY: each pointer and length is a slice that this store borrows alone.
        let x = unsafe { over!(self, clatterthaw_set, as_mut_ptr, r, c, v as u8) };
        self.keep(x)
    }

    /// SWAPR: rows i and j are exchanged.
    pub fn swap_rows(&mut self, i: u32, j: u32) -> Result<(), Refusal> {
        // SAFETY: each pointer and length is a slice that this store borrows alone.
        let x = unsafe { over!(self, clatterthaw_swap_rows, as_mut_ptr, i, j) };
        self.keep(x)
    }

    /// SWAPC: columns i and j are exchanged.
    pub fn swap_columns(&mut self, i: u32, j: u32) -> Result<(), Refusal> {
        // SAFETY: each pointer and length is a slice that this store borrows alone.
        let x = unsafe { over!(self, clatterthaw_swap_columns, as_mut_ptr, i, j) };
        self.keep(x)
    }

    /// ADD: row s is added to row d.
    pub fn add(&mut self, d: u32, s: u32, start: u32) -> Result<(), Refusal> {
        // SAFETY: each pointer and length is a slice that this store borrows alone.
        let x = unsafe { over!(self, clatterthaw_add, as_mut_ptr, d, s, start) };
        self.keep(x)
    }

    /// ON: the column index is built.
    pub fn on(&mut self) -> Result<(), Refusal> {
        // SAFETY: each pointer and length is a slice that this store borrows alone.
        let x = unsafe { over!(self, clatterthaw_on, as_mut_ptr) };
        self.keep(x)
    }

    /// OFF: the column index is dropped.
    pub fn off(&mut self) -> Result<(), Refusal> {
        // SAFETY: each pointer and length is a slice that this store borrows alone.
        let x = unsafe { over!(self, clatterthaw_off, as_mut_ptr) };
        self.keep(x)
    }

    /// FREEZE: column c, the last sparse one, joins the tail.
    pub fn freeze(&mut self, c: u32) -> Result<(), Refusal> {
        // SAFETY: each pointer and length is a slice that this store borrows alone.
        let x = unsafe { over!(self, clatterthaw_freeze, as_mut_ptr, c) };
        self.keep(x)
    }

    /// RESIZE: the matrix shrinks to h by w.
    pub fn resize(&mut self, h: u32, w: u32) -> Result<(), Refusal> {
        // SAFETY: each pointer and length is a slice that this store borrows alone.
        let x = unsafe { over!(self, clatterthaw_resize, as_mut_ptr, h, w) };
        self.keep(x)
    }

    /// SIZE: height, width and tail.
    pub fn size(&self) -> Result<Size, Refusal> {
        // SAFETY: each pointer and length is a slice; only the answers are written, and they are borrowed alone.
        let x = unsafe { over!(self, clatterthaw_size, as_ptr) };
        Refusal::of(x.no)?;
        Ok(Size { h: x.h, w: x.w, n: x.n })
    }

    /// GET: the bit in row r and column c.
    pub fn get(&self, r: u32, c: u32) -> Result<bool, Refusal> {
        // SAFETY: each pointer and length is a slice; only the answers are written, and they are borrowed alone.
        let x = unsafe { over!(self, clatterthaw_get, as_ptr, r, c) };
        Refusal::of(x.no)?;
        Ok(x.value == 1)
    }

    /// COUNT: how many of the sparse columns a to b-1 hold one in row r.
    pub fn count(&self, r: u32, a: u32, b: u32) -> Result<u32, Refusal> {
        // SAFETY: each pointer and length is a slice; only the answers are written, and they are borrowed alone.
        let x = unsafe { over!(self, clatterthaw_count, as_ptr, r, a, b) };
        Refusal::of(x.no)?;
        Ok(x.value)
    }

    /// ITER: the columns a to b-1 that hold one in row r, by rising home number.
    pub fn iter<'b>(&self, answers: &'b mut [u32], r: u32, a: u32, b: u32) -> Result<&'b [u32], Refusal> {
        // SAFETY: each pointer and length is a slice; only the answers are written, and they are borrowed alone.
        let x = unsafe { over!(self, clatterthaw_iter, as_ptr, answers.as_mut_ptr(), answers.len(), r, a, b) };
        Refusal::of(x.no)?;
        Ok(&answers[..x.count as usize])
    }

    /// TAILONES: the tail columns that hold one in row r; a is the first tail column.
    pub fn tail_ones<'b>(&self, answers: &'b mut [u32], r: u32, a: u32) -> Result<&'b [u32], Refusal> {
        // SAFETY: each pointer and length is a slice; only the answers are written, and they are borrowed alone.
        let x = unsafe { over!(self, clatterthaw_tail_ones, as_ptr, answers.as_mut_ptr(), answers.len(), r, a) };
        Refusal::of(x.no)?;
        Ok(&answers[..x.count as usize])
    }

    /// COLONES: the rows a to b-1 that hold one in column c.
    pub fn column_ones<'b>(&self, answers: &'b mut [u32], c: u32, a: u32, b: u32) -> Result<&'b [u32], Refusal> {
        // SAFETY: each pointer and length is a slice; only the answers are written, and they are borrowed alone.
        let x = unsafe { over!(self, clatterthaw_column_ones, as_ptr, answers.as_mut_ptr(), answers.len(), c, a, b) };
        Refusal::of(x.no)?;
        Ok(&answers[..x.count as usize])
    }

    /// WORDS: the words of row r's tail; a is the first tail column.
    pub fn words(&self, r: u32, a: u32) -> Result<&[u64], Refusal> {
        // SAFETY: each pointer and length is a slice; only the answers are written, and they are borrowed alone.
        let x = unsafe { over!(self, clatterthaw_words, as_ptr, r, a) };
        Refusal::of(x.no)?;
        Ok(&self.lent.words[x.start..x.start + x.count as usize])
    }

    /// Script records over the store, a line for each into `lines`. The store is checked once. The run stops before the first record whose line would not fit
    /// whole: call it again with the records after `done`.
    pub fn run(&mut self, answers: &mut [u32], records: &[u8], lines: &mut [u8]) -> Result<Ran, Refusal> {
        // SAFETY: each pointer and length is a slice that is borrowed alone, but for the records, which are only read.
        let x = unsafe {
            over!(
                self,
                clatterthaw_run,
                as_mut_ptr,
                answers.as_mut_ptr(),
                answers.len(),
                records.as_ptr(),
                records.len(),
                lines.as_mut_ptr(),
                lines.len()
            )
        };
        self.head = x.head;
        Refusal::of(x.no)?;
        Ok(Ran {
            done: x.done,
            written: x.written,
        })
    }
}

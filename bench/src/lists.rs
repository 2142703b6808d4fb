//! The lists of operations that are timed: what is done before, untimed, and what is timed.
use drive::ops::{Dice, Op};

/// A list with its setting.
pub struct List {
    pub name: &'static str,
    pub before: Vec<Op>,
    pub timed: Vec<Op>,
    pub h: u32,
    pub w: u32,
    pub slots: u32,
    pub ones: usize,
    pub tail: u32,
}

/// MAKE, and `per_row` ones in each row's sparse columns; of the tail every third bit, more or less.
fn filled(h: u32, w: u32, n: u32, slots: u32, per_row: u32, dice: &mut Dice) -> Vec<Op> {
    let mut ops = vec![Op::Make(h, w, n, slots)];
    for r in 0..h {
        for _ in 0..per_row {
            ops.push(Op::Set(r, dice.below(w - n), 1));
        }
        for c in w - n..w {
            if dice.below(3) == 0 {
                ops.push(Op::Set(r, c, 1));
            }
        }
    }
    ops
}

/// Two different rows.
fn pair(h: u32, dice: &mut Dice) -> (u32, u32) {
    let d = dice.below(h);
    let s = (d + 1 + dice.below(h - 1)) % h;
    (d, s)
}

/// "1,000 by 1,000, about eight ones a row, a tail of one at making, 200 freezes, 10,000 additions", slots large enough.
pub fn k11(seed: u64) -> List {
    let mut dice = Dice::new(seed);
    let (h, w, slots) = (1000, 1000, 1000);
    let mut timed = filled(h, w, 1, slots, 8, &mut dice);
    timed.push(Op::On);
    for k in 0..200 {
        timed.push(Op::Freeze(w - 2 - k));
    }
    timed.push(Op::Off);
    for _ in 0..10_000 {
        let (d, s) = pair(h, &mut dice);
        timed.push(Op::Add(d, s, 0));
    }
    List {
        name: "K11's list",
        before: vec![],
        timed,
        h,
        w,
        slots,
        ones: 8000,
        tail: 201,
    }
}

/// One kind of operation by itself, over 1,000 by 1,000 with eight ones a row.
pub fn kinds() -> Vec<List> {
    let (h, w, slots) = (1000, 1000, 64);
    let mut dice = Dice::new(7);
    let mut lists = Vec::new();
    let mut list = |name, n: u32, per_row: u32, slots: u32, more: &[Op], timed: Vec<Op>| {
        let mut dice = Dice::new(11);
        let mut before = filled(h, w, n, slots, per_row, &mut dice);
        before.extend(more);
        lists.push(List {
            name,
            before,
            timed,
            h,
            w,
            slots,
            ones: (h * per_row) as usize,
            tail: 256,
        });
    };
    let many = |count: usize, f: &mut dyn FnMut() -> Vec<Op>| -> Vec<Op> { (0..count).flat_map(|_| f()).collect() };

    list("MAKE", 1, 8, slots, &[], vec![Op::Make(h, w, 1, slots); 50]);
    list(
        "SET, sparse",
        1,
        8,
        slots,
        &[],
        many(25_000, &mut || {
            let (r, c) = (dice.below(h), dice.below(w - 1));
            vec![Op::Set(r, c, 1), Op::Set(r, c, 0)]
        }),
    );
    list(
        "SET, tail",
        200,
        8,
        slots,
        &[],
        many(50_000, &mut || {
            vec![Op::Set(dice.below(h), 800 + dice.below(200), dice.below(2) as u8)]
        }),
    );
    list(
        "SWAPR",
        1,
        8,
        slots,
        &[],
        many(50_000, &mut || vec![Op::SwapR(dice.below(h), dice.below(h))]),
    );
    list(
        "SWAPC",
        1,
        8,
        slots,
        &[],
        many(50_000, &mut || vec![Op::SwapC(dice.below(w - 1), dice.below(w - 1))]),
    );
    list(
        "ADD, eight ones",
        1,
        8,
        slots,
        &[],
        many(25_000, &mut || {
            let (d, s) = pair(h, &mut dice);
            vec![Op::Add(d, s, 0), Op::Add(d, s, 0)]
        }),
    );
    list(
        "ADD, 400 ones",
        1,
        500,
        1000,
        &[],
        many(5_000, &mut || {
            let (d, s) = pair(h, &mut dice);
            vec![Op::Add(d, s, 0)]
        }),
    );
    list(
        "ADD, tail of 200",
        200,
        8,
        slots,
        &[],
        many(50_000, &mut || {
            let (d, s) = pair(h, &mut dice);
            vec![Op::Add(d, s, 800)]
        }),
    );
    list("ON and OFF", 1, 8, slots, &[], many(50, &mut || vec![Op::On, Op::Off]));
    list("FREEZE", 1, 8, slots, &[Op::On], (0..200).map(|k| Op::Freeze(w - 2 - k)).collect());
    list("RESIZE", 1, 8, slots, &[], vec![Op::Resize(500, 500)]);
    list(
        "GET, sparse",
        1,
        8,
        slots,
        &[],
        many(50_000, &mut || vec![Op::Get(dice.below(h), dice.below(w - 1))]),
    );
    list(
        "GET, tail",
        200,
        8,
        slots,
        &[],
        many(50_000, &mut || vec![Op::Get(dice.below(h), 800 + dice.below(200))]),
    );
    list(
        "COUNT",
        1,
        8,
        slots,
        &[],
        many(50_000, &mut || vec![Op::Count(dice.below(h), 0, w - 1)]),
    );
    list(
        "ITER",
        1,
        8,
        slots,
        &[],
        many(50_000, &mut || vec![Op::Iter(dice.below(h), 0, w - 1)]),
    );
    list(
        "WORDS, tail of 200",
        200,
        8,
        slots,
        &[],
        many(50_000, &mut || vec![Op::Words(dice.below(h), 800)]),
    );
    list(
        "TAILONES, tail of 200",
        200,
        8,
        slots,
        &[],
        many(20_000, &mut || vec![Op::TailOnes(dice.below(h), 800)]),
    );
    list(
        "COLONES",
        1,
        8,
        slots,
        &[Op::On],
        many(50_000, &mut || vec![Op::ColOnes(dice.below(w - 1), 0, h)]),
    );
    list("SIZE", 1, 8, slots, &[], vec![Op::Size; 50_000]);
    lists
}

/// How an operation grows with the rows: h by h, eight ones a row.
pub fn growth(h: u32) -> Vec<List> {
    let mut dice = Dice::new(5);
    let slots = 32;
    let mut lists = Vec::new();
    let mut list = |name, more: &[Op], timed: Vec<Op>| {
        let mut dice = Dice::new(3);
        let mut before = filled(h, h, 1, slots, 8, &mut dice);
        before.extend(more);
        lists.push(List {
            name,
            before,
            timed,
            h,
            w: h,
            slots,
            ones: 8 * h as usize,
            tail: 64,
        });
    };
    let adds = (0..5_000).flat_map(|_| {
        let (d, s) = pair(h, &mut dice);
        [Op::Add(d, s, 0), Op::Add(d, s, 0)]
    });
    list("ADD", &[], adds.collect());
    list("ON", &[], vec![Op::On, Op::On, Op::On]);
    list("FREEZE", &[Op::On], (0..30).map(|k| Op::Freeze(h - 2 - k)).collect());
    list("RESIZE", &[], vec![Op::Resize(h / 2, h / 2)]);
    let mut dice = Dice::new(9);
    list(
        "COLONES",
        &[Op::On],
        (0..5_000).map(|_| Op::ColOnes(dice.below(h - 1), 0, h)).collect(),
    );
    lists
}

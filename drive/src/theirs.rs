//! The published matrix, driven by the same operations.
use crate::ops::Op;
use published::matrix::BinaryMatrix;
use published::octet::Octet;
use published::octets::fused_addassign_mul_scalar_binary;
use published::sparse_matrix::SparseBinaryMatrix;
use std::hint::black_box;

/// Applies the operations, in the places that our store makes with MAKE.
pub fn run(matrix: &mut SparseBinaryMatrix, ops: &[Op], rows: &mut Vec<u32>, columns: &mut Vec<usize>) {
    for op in ops {
        match *op {
            Op::Make(h, w, n, _) => *matrix = SparseBinaryMatrix::new(h as usize, w as usize, n as usize),
            Op::Set(r, c, v) => matrix.set(r as usize, c as usize, if v == 0 { Octet::zero() } else { Octet::one() }),
            Op::SwapR(i, j) => matrix.swap_rows(i as usize, j as usize),
            Op::SwapC(i, j) => matrix.swap_columns(i as usize, j as usize, 0),
            Op::Add(d, s, start) => matrix.add_assign_rows(d as usize, s as usize, start as usize),
            Op::On => matrix.enable_column_access_acceleration(),
            Op::Off => matrix.disable_column_access_acceleration(),
            Op::Freeze(c) => matrix.hint_column_dense_and_frozen(c as usize),
            Op::Resize(h, w) => matrix.resize(h as usize, w as usize),
            Op::Get(r, c) => {
                black_box(matrix.get(r as usize, c as usize));
            }
            Op::Count(r, a, b) => {
                black_box(matrix.count_ones(r as usize, a as usize, b as usize));
            }
            Op::Words(r, a) => {
                black_box(matrix.get_sub_row_as_octets(r as usize, a as usize));
            }
            Op::TailOnes(r, a) => {
                matrix.query_non_zero_columns_into(r as usize, a as usize, columns);
                black_box(&columns);
            }
            Op::Iter(r, a, b) => {
                columns.clear();
                for (column, value) in matrix.get_row_iter(r as usize, a as usize, b as usize) {
                    if value == Octet::one() {
                        columns.push(column);
                    }
                }
                black_box(&columns);
            }
            Op::ColOnes(c, a, b) => {
                matrix.get_ones_in_column_into(c as usize, a as usize, b as usize, rows);
                black_box(&rows);
            }
            Op::Size => {
                black_box((matrix.height(), matrix.width()));
            }
        }
    }
}

pub fn new() -> SparseBinaryMatrix {
    SparseBinaryMatrix::new(0, 0, 0)
}

/// COLONES as the published matrix orders it.
pub fn column_rows(matrix: &SparseBinaryMatrix, c: u32, a: u32, b: u32) -> Vec<u64> {
    let end = (b as usize).min(matrix.height());
    matrix
        .get_ones_in_column(c as usize, a as usize, end)
        .iter()
        .map(|x| *x as u64)
        .collect()
}

/// One operation: what the published matrix answers. COLONES' end is cut to the height, since the published one first reserves that many places; its list
/// is sorted. The tail's words come as bits, the first tail column first, by the one public function
/// that reads them. It has no n to tell.
pub fn call(matrix: &mut SparseBinaryMatrix, op: Op) -> Vec<u64> {
    match op {
        Op::Get(r, c) => vec![(matrix.get(r as usize, c as usize) == Octet::one()) as u64],
        Op::Count(r, a, b) => vec![matrix.count_ones(r as usize, a as usize, b as usize) as u64],
        Op::Words(r, a) => {
            let words = matrix.get_sub_row_as_octets(r as usize, a as usize);
            let mut bits = vec![0; words.len()];
            fused_addassign_mul_scalar_binary(&mut bits, &words, &Octet::one());
            bits.iter().map(|x| *x as u64).collect()
        }
        Op::TailOnes(r, a) => matrix
            .query_non_zero_columns(r as usize, a as usize)
            .iter()
            .map(|x| *x as u64)
            .collect(),
        Op::Iter(r, a, b) => matrix
            .get_row_iter(r as usize, a as usize, b as usize)
            .filter(|(_, value)| *value == Octet::one())
            .map(|(column, _)| column as u64)
            .collect(),
        Op::ColOnes(c, a, b) => {
            let mut rows = column_rows(matrix, c, a, b);
            rows.sort();
            rows
        }
        Op::Size => vec![matrix.height() as u64, matrix.width() as u64],
        _ => {
            run(matrix, &[op], &mut vec![], &mut vec![]);
            vec![]
        }
    }
}

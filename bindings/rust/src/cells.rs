//! Cells of a lent matrix: sizes are rows and cols, or n; buffer 0 is the matrix.

use crate::{answer, sys, Refusal};

/// The number in (row, column) of the rows by cols matrix m.
pub fn get(rows: usize, cols: usize, m: &[f32], row: usize, column: usize) -> Result<f32, Refusal> {
    let mut value = 0.0;
    // SAFETY: a slice is valid for its length, and value is one float.
    answer(unsafe { sys::yurgamysh_get(rows, cols, m.as_ptr(), m.len(), row, column, &mut value) })?;
    Ok(value)
}

/// `value` in (row, column) of the rows by cols matrix m.
pub fn set(
    rows: usize,
    cols: usize,
    m: &mut [f32],
    row: usize,
    column: usize,
    value: f32,
) -> Result<(), Refusal> {
    // SAFETY: a slice is valid for its length, and one that is written overlaps no other.
    answer(unsafe { sys::yurgamysh_set(rows, cols, m.as_mut_ptr(), m.len(), row, column, value) })
}

/// `value` in (row, column) and in (column, row) of the n by n matrix m.
pub fn set_symmetric(n: usize, m: &mut [f32], row: usize, column: usize, value: f32) -> Result<(), Refusal> {
    // SAFETY: a slice is valid for its length, and one that is written overlaps no other.
    answer(unsafe { sys::yurgamysh_set_symmetric(n, m.as_mut_ptr(), m.len(), row, column, value) })
}

/// A row of the rows by cols matrix m, in the first cols numbers of `row_data`.
pub fn get_row_copy(
    rows: usize,
    cols: usize,
    m: &[f32],
    row: usize,
    row_data: &mut [f32],
) -> Result<(), Refusal> {
    // SAFETY: a slice is valid for its length, and one that is written overlaps no other.
    answer(unsafe {
        sys::yurgamysh_get_row_copy(
            rows,
            cols,
            m.as_ptr(),
            m.len(),
            row,
            row_data.as_mut_ptr(),
            row_data.len(),
        )
    })
}

/// A column of the rows by cols matrix m, in the first rows numbers of `column_data`.
pub fn get_column_copy(
    rows: usize,
    cols: usize,
    m: &[f32],
    column: usize,
    column_data: &mut [f32],
) -> Result<(), Refusal> {
    // SAFETY: a slice is valid for its length, and one that is written overlaps no other.
    answer(unsafe {
        sys::yurgamysh_get_column_copy(
            rows,
            cols,
            m.as_ptr(),
            m.len(),
            column,
            column_data.as_mut_ptr(),
            column_data.len(),
        )
    })
}

/// The rows by cols matrix m, in the first rows·cols numbers of `target`.
pub fn copy_to(rows: usize, cols: usize, m: &[f32], target: &mut [f32]) -> Result<(), Refusal> {
    // SAFETY: a slice is valid for its length, and one that is written overlaps no other.
    answer(unsafe {
        sys::yurgamysh_copy_to(rows, cols, m.as_ptr(), m.len(), target.as_mut_ptr(), target.len())
    })
}

/// `x` in every cell of the rows by cols matrix m.
pub fn set_all(rows: usize, cols: usize, m: &mut [f32], x: f32) -> Result<(), Refusal> {
    // SAFETY: a slice is valid for its length, and one that is written overlaps no other.
    answer(unsafe { sys::yurgamysh_set_all(rows, cols, m.as_mut_ptr(), m.len(), x) })
}

/// +0 in every cell of the rows by cols matrix m.
pub fn set_zero(rows: usize, cols: usize, m: &mut [f32]) -> Result<(), Refusal> {
    // SAFETY: a slice is valid for its length, and one that is written overlaps no other.
    answer(unsafe { sys::yurgamysh_set_zero(rows, cols, m.as_mut_ptr(), m.len()) })
}

/// `value` on the diagonal of the n by n matrix m; the other cells stay.
pub fn set_diagonal_to_scalar(n: usize, m: &mut [f32], value: f32) -> Result<(), Refusal> {
    // SAFETY: a slice is valid for its length, and one that is written overlaps no other.
    answer(unsafe { sys::yurgamysh_set_diagonal_to_scalar(n, m.as_mut_ptr(), m.len(), value) })
}

/// `diagonal` on the diagonal of the n by n matrix m, +0 elsewhere.
pub fn make_scalar(n: usize, m: &mut [f32], diagonal: f32) -> Result<(), Refusal> {
    // SAFETY: a slice is valid for its length, and one that is written overlaps no other.
    answer(unsafe { sys::yurgamysh_make_scalar(n, m.as_mut_ptr(), m.len(), diagonal) })
}

/// 1 on the diagonal of the n by n matrix m, +0 elsewhere.
pub fn make_identity(n: usize, m: &mut [f32]) -> Result<(), Refusal> {
    // SAFETY: a slice is valid for its length, and one that is written overlaps no other.
    answer(unsafe { sys::yurgamysh_make_identity(n, m.as_mut_ptr(), m.len()) })
}

/// `diagonal` on the diagonal of the n by n matrix m, `off_diagonal` elsewhere.
pub fn make_comatrix(n: usize, m: &mut [f32], diagonal: f32, off_diagonal: f32) -> Result<(), Refusal> {
    // SAFETY: a slice is valid for its length, and one that is written overlaps no other.
    answer(unsafe { sys::yurgamysh_make_comatrix(n, m.as_mut_ptr(), m.len(), diagonal, off_diagonal) })
}

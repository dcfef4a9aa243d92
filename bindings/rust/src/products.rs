//! Products: sizes are rows, inner, cols; buffers are a, b (or x), c.

use crate::{answer, sys, Refusal};

/// `c = a·b`, a of rows by inner, b of inner by cols and c of rows by cols.
pub fn mult(
    rows: usize,
    inner: usize,
    cols: usize,
    a: &[f32],
    b: &[f32],
    c: &mut [f32],
) -> Result<(), Refusal> {
    // SAFETY: a slice is valid for its length, and one that is written overlaps no other.
    answer(unsafe {
        sys::yurgamysh_mult(
            rows,
            inner,
            cols,
            a.as_ptr(),
            a.len(),
            b.as_ptr(),
            b.len(),
            c.as_mut_ptr(),
            c.len(),
        )
    })
}

/// `c = a·b`; `baux`, of inner numbers, ends with column 0 of b.
pub fn mult_buffered(
    rows: usize,
    inner: usize,
    cols: usize,
    a: &[f32],
    b: &[f32],
    c: &mut [f32],
    baux: &mut [f32],
) -> Result<(), Refusal> {
    // SAFETY: a slice is valid for its length, and one that is written overlaps no other.
    answer(unsafe {
        sys::yurgamysh_mult_buffered(
            rows,
            inner,
            cols,
            a.as_ptr(),
            a.len(),
            b.as_ptr(),
            b.len(),
            c.as_mut_ptr(),
            c.len(),
            baux.as_mut_ptr(),
            baux.len(),
        )
    })
}

/// `c = a·bᵀ`, b of cols by inner.
pub fn mult_transb(
    rows: usize,
    inner: usize,
    cols: usize,
    a: &[f32],
    b: &[f32],
    c: &mut [f32],
) -> Result<(), Refusal> {
    // SAFETY: a slice is valid for its length, and one that is written overlaps no other.
    answer(unsafe {
        sys::yurgamysh_mult_transb(
            rows,
            inner,
            cols,
            a.as_ptr(),
            a.len(),
            b.as_ptr(),
            b.len(),
            c.as_mut_ptr(),
            c.len(),
        )
    })
}

/// `c = c + a·bᵀ`, b of cols by inner.
pub fn multadd_transb(
    rows: usize,
    inner: usize,
    cols: usize,
    a: &[f32],
    b: &[f32],
    c: &mut [f32],
) -> Result<(), Refusal> {
    // SAFETY: a slice is valid for its length, and one that is written overlaps no other.
    answer(unsafe {
        sys::yurgamysh_multadd_transb(
            rows,
            inner,
            cols,
            a.as_ptr(),
            a.len(),
            b.as_ptr(),
            b.len(),
            c.as_mut_ptr(),
            c.len(),
        )
    })
}

/// `c = (a·bᵀ)·scale`, b of cols by inner.
pub fn multscale_transb(
    rows: usize,
    inner: usize,
    cols: usize,
    a: &[f32],
    b: &[f32],
    scale: f32,
    c: &mut [f32],
) -> Result<(), Refusal> {
    // SAFETY: a slice is valid for its length, and one that is written overlaps no other.
    answer(unsafe {
        sys::yurgamysh_multscale_transb(
            rows,
            inner,
            cols,
            a.as_ptr(),
            a.len(),
            b.as_ptr(),
            b.len(),
            scale,
            c.as_mut_ptr(),
            c.len(),
        )
    })
}

/// `c = a·x`, a of rows by inner, x of inner numbers and c of rows numbers.
pub fn mult_rowvector(rows: usize, inner: usize, a: &[f32], x: &[f32], c: &mut [f32]) -> Result<(), Refusal> {
    // SAFETY: a slice is valid for its length, and one that is written overlaps no other.
    answer(unsafe {
        sys::yurgamysh_mult_rowvector(
            rows,
            inner,
            a.as_ptr(),
            a.len(),
            x.as_ptr(),
            x.len(),
            c.as_mut_ptr(),
            c.len(),
        )
    })
}

/// `c = c + a·x`.
pub fn multadd_rowvector(
    rows: usize,
    inner: usize,
    a: &[f32],
    x: &[f32],
    c: &mut [f32],
) -> Result<(), Refusal> {
    // SAFETY: a slice is valid for its length, and one that is written overlaps no other.
    answer(unsafe {
        sys::yurgamysh_multadd_rowvector(
            rows,
            inner,
            a.as_ptr(),
            a.len(),
            x.as_ptr(),
            x.len(),
            c.as_mut_ptr(),
            c.len(),
        )
    })
}

//! Sums and differences of rows by cols matrices: buffers are a, b, c.

use crate::{answer, sys, Refusal};

/// `c = a − b`, all of rows by cols.
pub fn sub(rows: usize, cols: usize, a: &[f32], b: &[f32], c: &mut [f32]) -> Result<(), Refusal> {
    // SAFETY: a slice is valid for its length, and one that is written overlaps no other.
    answer(unsafe {
        sys::yurgamysh_sub(rows, cols, a.as_ptr(), a.len(), b.as_ptr(), b.len(), c.as_mut_ptr(), c.len())
    })
}

/// `a = a − b`.
pub fn sub_inplace_a(rows: usize, cols: usize, a: &mut [f32], b: &[f32]) -> Result<(), Refusal> {
    // SAFETY: a slice is valid for its length, and one that is written overlaps no other.
    answer(unsafe { sys::yurgamysh_sub_inplace_a(rows, cols, a.as_mut_ptr(), a.len(), b.as_ptr(), b.len()) })
}

/// `b = a − b`.
pub fn sub_inplace_b(rows: usize, cols: usize, a: &[f32], b: &mut [f32]) -> Result<(), Refusal> {
    // SAFETY: a slice is valid for its length, and one that is written overlaps no other.
    answer(unsafe { sys::yurgamysh_sub_inplace_b(rows, cols, a.as_ptr(), a.len(), b.as_mut_ptr(), b.len()) })
}

/// `a = a + b`.
pub fn add_inplace_a(rows: usize, cols: usize, a: &mut [f32], b: &[f32]) -> Result<(), Refusal> {
    // SAFETY: a slice is valid for its length, and one that is written overlaps no other.
    answer(unsafe { sys::yurgamysh_add_inplace_a(rows, cols, a.as_mut_ptr(), a.len(), b.as_ptr(), b.len()) })
}

/// `b = a + b`.
pub fn add_inplace_b(rows: usize, cols: usize, a: &[f32], b: &mut [f32]) -> Result<(), Refusal> {
    // SAFETY: a slice is valid for its length, and one that is written overlaps no other.
    answer(unsafe { sys::yurgamysh_add_inplace_b(rows, cols, a.as_ptr(), a.len(), b.as_mut_ptr(), b.len()) })
}

//! Decomposition and inverse.

use crate::{answer, sys, Refusal};

/// The lower Cholesky factor of the symmetric n by n matrix t, in t. Only the upper triangle and the
/// diagonal are read; the strict upper triangle ends as +0.
///
/// `Pivot(i)` leaves the columns before i done, the refused pivot times the reciprocal of the root
/// before it at (i, i), and every other cell as lent.
pub fn cholesky_decompose_lower(n: usize, t: &mut [f32]) -> Result<(), Refusal> {
    // SAFETY: a slice is valid for its length, and one that is written overlaps no other.
    answer(unsafe { sys::yurgamysh_cholesky_decompose_lower(n, t.as_mut_ptr(), t.len()) })
}

/// The inverse of `L·Lᵀ` from its lower factor L, whose strict upper triangle is not read.
///
/// Size 0 is n; buffers are l, inv.
pub fn invert_l_cholesky(n: usize, l: &[f32], inv: &mut [f32]) -> Result<(), Refusal> {
    // SAFETY: a slice is valid for its length, and one that is written overlaps no other.
    answer(unsafe { sys::yurgamysh_invert_l_cholesky(n, l.as_ptr(), l.len(), inv.as_mut_ptr(), inv.len()) })
}

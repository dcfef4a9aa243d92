//! The prediction, over lent buffers.

use crate::{answer, sys, Refusal};

/// `x = A·x` and `P = A·P·Aᵀ + Q`. `predicted_x` ends as the new x, `temp_p` as `A·P`.
///
/// What is not finite is not refused here: after an overflow every correction is, with `Pivot` or
/// `NotFinite`, until x and P are set anew.
///
/// Size 0 is n; buffers are x, A, P, Q, predicted_x, temp_P.
pub fn predict(
    n: usize,
    x: &mut [f32],
    a: &[f32],
    p: &mut [f32],
    q: &[f32],
    predicted_x: &mut [f32],
    temp_p: &mut [f32],
) -> Result<(), Refusal> {
    // SAFETY: a slice is valid for its length, and one that is written overlaps no other.
    answer(unsafe {
        sys::yurgamysh_predict(
            n,
            x.as_mut_ptr(),
            x.len(),
            a.as_ptr(),
            a.len(),
            p.as_mut_ptr(),
            p.len(),
            q.as_ptr(),
            q.len(),
            predicted_x.as_mut_ptr(),
            predicted_x.len(),
            temp_p.as_mut_ptr(),
            temp_p.len(),
        )
    })
}

/// The first half of [`predict`]: `x = A·x`.
///
/// Size 0 is n; buffers are x, A, predicted_x.
pub fn predict_x(n: usize, x: &mut [f32], a: &[f32], predicted_x: &mut [f32]) -> Result<(), Refusal> {
    // SAFETY: a slice is valid for its length, and one that is written overlaps no other.
    answer(unsafe {
        sys::yurgamysh_predict_x(
            n,
            x.as_mut_ptr(),
            x.len(),
            a.as_ptr(),
            a.len(),
            predicted_x.as_mut_ptr(),
            predicted_x.len(),
        )
    })
}

/// The second half of [`predict`]: `P = A·P·Aᵀ + Q`.
///
/// Size 0 is n; buffers are A, P, Q, temp_P.
pub fn predict_p(n: usize, a: &[f32], p: &mut [f32], q: &[f32], temp_p: &mut [f32]) -> Result<(), Refusal> {
    // SAFETY: a slice is valid for its length, and one that is written overlaps no other.
    answer(unsafe {
        sys::yurgamysh_predict_p(
            n,
            a.as_ptr(),
            a.len(),
            p.as_mut_ptr(),
            p.len(),
            q.as_ptr(),
            q.len(),
            temp_p.as_mut_ptr(),
            temp_p.len(),
        )
    })
}

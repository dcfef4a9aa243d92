//! The square root and the reciprocal.

use crate::sys;

/// The root of x, the nearest f32; NaN for NaN and for anything below zero, −0 for −0.
pub fn square_root(x: f32) -> f32 {
    // SAFETY: a number in, a number out.
    unsafe { sys::yurgamysh_square_root(x) }
}

/// 1/v, rounded once.
pub fn recip(v: f32) -> f32 {
    // SAFETY: a number in, a number out.
    unsafe { sys::yurgamysh_recip(v) }
}

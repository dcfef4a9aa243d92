//! The innovation, the update from it, and both, over lent buffers.

use crate::{answer, sys, Refusal};

/// `y = z − H·x`.
///
/// Sizes are n, m; buffers are x, H, z, y.
pub fn innovation(n: usize, m: usize, x: &[f32], h: &[f32], z: &[f32], y: &mut [f32]) -> Result<(), Refusal> {
    // SAFETY: a slice is valid for its length, and one that is written overlaps no other.
    answer(unsafe {
        sys::yurgamysh_innovation(
            n,
            m,
            x.as_ptr(),
            x.len(),
            h.as_ptr(),
            h.len(),
            z.as_ptr(),
            z.len(),
            y.as_mut_ptr(),
            y.len(),
        )
    })
}

/// `x = x + K·y` and `P = P − K·H·P`, with the gain `K = P·Hᵀ·S⁻¹` of `S = H·P·Hᵀ + R`; S ends as the
/// lower factor of that sum.
///
/// `Pivot` leaves x, P, K, temp_S_inv, temp_PHt and temp_KHP as lent. `NotFinite`, where some entry of the
/// new x or P is an infinity or a NaN, leaves x and P as lent and the rest as the accepted call would. An
/// infinity or a NaN in y is always refused so, unless a pivot is refused first.
///
/// Sizes are n, m; buffers are x, P, H, R, y, S, K, temp_S_inv, temp_HP, temp_PHt, temp_KHP.
#[allow(clippy::too_many_arguments)]
pub fn update(
    n: usize,
    m: usize,
    x: &mut [f32],
    p: &mut [f32],
    h: &[f32],
    r: &[f32],
    y: &[f32],
    s: &mut [f32],
    k: &mut [f32],
    temp_s_inv: &mut [f32],
    temp_hp: &mut [f32],
    temp_pht: &mut [f32],
    temp_khp: &mut [f32],
) -> Result<(), Refusal> {
    // SAFETY: a slice is valid for its length, and one that is written overlaps no other.
    answer(unsafe {
        sys::yurgamysh_update(
            n,
            m,
            x.as_mut_ptr(),
            x.len(),
            p.as_mut_ptr(),
            p.len(),
            h.as_ptr(),
            h.len(),
            r.as_ptr(),
            r.len(),
            y.as_ptr(),
            y.len(),
            s.as_mut_ptr(),
            s.len(),
            k.as_mut_ptr(),
            k.len(),
            temp_s_inv.as_mut_ptr(),
            temp_s_inv.len(),
            temp_hp.as_mut_ptr(),
            temp_hp.len(),
            temp_pht.as_mut_ptr(),
            temp_pht.len(),
            temp_khp.as_mut_ptr(),
            temp_khp.len(),
        )
    })
}

/// [`innovation`], and then [`update`] from it.
///
/// `Pivot` leaves x, P, K, temp_S_inv, temp_PHt and temp_KHP as lent. `NotFinite`, where some entry of the
/// new x or P is an infinity or a NaN, leaves x and P as lent and the rest as the accepted call would. The
/// readings do not enter S, so no pivot tells a bad one: an infinity or a NaN in z is always refused with
/// `NotFinite`, unless a pivot is refused first.
///
/// Sizes are n, m; buffers are x, P, H, z, R, y, S, K, temp_S_inv, temp_HP, temp_PHt, temp_KHP.
#[allow(clippy::too_many_arguments)]
pub fn correct(
    n: usize,
    m: usize,
    x: &mut [f32],
    p: &mut [f32],
    h: &[f32],
    z: &[f32],
    r: &[f32],
    y: &mut [f32],
    s: &mut [f32],
    k: &mut [f32],
    temp_s_inv: &mut [f32],
    temp_hp: &mut [f32],
    temp_pht: &mut [f32],
    temp_khp: &mut [f32],
) -> Result<(), Refusal> {
    // SAFETY: a slice is valid for its length, and one that is written overlaps no other.
    answer(unsafe {
        sys::yurgamysh_correct(
            n,
            m,
            x.as_mut_ptr(),
            x.len(),
            p.as_mut_ptr(),
            p.len(),
            h.as_ptr(),
            h.len(),
            z.as_ptr(),
            z.len(),
            r.as_ptr(),
            r.len(),
            y.as_mut_ptr(),
            y.len(),
            s.as_mut_ptr(),
            s.len(),
            k.as_mut_ptr(),
            k.len(),
            temp_s_inv.as_mut_ptr(),
            temp_s_inv.len(),
            temp_hp.as_mut_ptr(),
            temp_hp.len(),
            temp_pht.as_mut_ptr(),
            temp_pht.len(),
            temp_khp.as_mut_ptr(),
            temp_khp.len(),
        )
    })
}

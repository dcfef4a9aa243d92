//! The functions of `include/yurgamysh.h`, as C has them: each slice is a pointer and a length, and a
//! yarn's record, the counts of a row or a size that is written a pointer.

use crate::OneState;
use core::mem::offset_of;

/// `yurgamysh_counts` of the header: how many feeders were accepted, and the index of the first that was
/// refused, or the number of feeders where none was.
#[repr(C)]
pub struct Counts {
    pub accepted: usize,
    pub first_refused: usize,
}

const _: () = {
    assert!(size_of::<Counts>() == 16 && align_of::<Counts>() == 8);
    assert!(offset_of!(Counts, accepted) == 0 && offset_of!(Counts, first_refused) == 8);
};

extern "C" {
    pub fn yurgamysh_predict(
        n: usize,
        x: *mut f32,
        x_len: usize,
        a: *const f32,
        a_len: usize,
        p: *mut f32,
        p_len: usize,
        q: *const f32,
        q_len: usize,
        predicted_x: *mut f32,
        predicted_x_len: usize,
        temp_p: *mut f32,
        temp_p_len: usize,
    ) -> usize;
    pub fn yurgamysh_predict_x(
        n: usize,
        x: *mut f32,
        x_len: usize,
        a: *const f32,
        a_len: usize,
        predicted_x: *mut f32,
        predicted_x_len: usize,
    ) -> usize;
    pub fn yurgamysh_predict_p(
        n: usize,
        a: *const f32,
        a_len: usize,
        p: *mut f32,
        p_len: usize,
        q: *const f32,
        q_len: usize,
        temp_p: *mut f32,
        temp_p_len: usize,
    ) -> usize;
    pub fn yurgamysh_innovation(
        n: usize,
        m: usize,
        x: *const f32,
        x_len: usize,
        h: *const f32,
        h_len: usize,
        z: *const f32,
        z_len: usize,
        y: *mut f32,
        y_len: usize,
    ) -> usize;
    pub fn yurgamysh_update(
        n: usize,
        m: usize,
        x: *mut f32,
        x_len: usize,
        p: *mut f32,
        p_len: usize,
        h: *const f32,
        h_len: usize,
        r: *const f32,
        r_len: usize,
        y: *const f32,
        y_len: usize,
        s: *mut f32,
        s_len: usize,
        k: *mut f32,
        k_len: usize,
        temp_s_inv: *mut f32,
        temp_s_inv_len: usize,
        temp_hp: *mut f32,
        temp_hp_len: usize,
        temp_pht: *mut f32,
        temp_pht_len: usize,
        temp_khp: *mut f32,
        temp_khp_len: usize,
    ) -> usize;
    pub fn yurgamysh_correct(
        n: usize,
        m: usize,
        x: *mut f32,
        x_len: usize,
        p: *mut f32,
        p_len: usize,
        h: *const f32,
        h_len: usize,
        z: *const f32,
        z_len: usize,
        r: *const f32,
        r_len: usize,
        y: *mut f32,
        y_len: usize,
        s: *mut f32,
        s_len: usize,
        k: *mut f32,
        k_len: usize,
        temp_s_inv: *mut f32,
        temp_s_inv_len: usize,
        temp_hp: *mut f32,
        temp_hp_len: usize,
        temp_pht: *mut f32,
        temp_pht_len: usize,
        temp_khp: *mut f32,
        temp_khp_len: usize,
    ) -> usize;
    pub fn yurgamysh_one_state_predict(yarn: *mut OneState);
    pub fn yurgamysh_one_state_correct(yarn: *mut OneState, z: f32) -> usize;
    pub fn yurgamysh_feeders_predict(feeders: *mut OneState, feeders_len: usize) -> usize;
    pub fn yurgamysh_feeders_correct(
        feeders: *mut OneState,
        feeders_len: usize,
        readings: *const f32,
        readings_len: usize,
        counts: *mut Counts,
    ) -> usize;
    pub fn yurgamysh_card_read(
        card: *const u8,
        card_len: usize,
        a: *mut f32,
        a_len: usize,
        q: *mut f32,
        q_len: usize,
        h: *mut f32,
        h_len: usize,
        r: *mut f32,
        r_len: usize,
        states: *mut usize,
        observations: *mut usize,
    ) -> usize;
    pub fn yurgamysh_card_write(
        states: usize,
        observations: usize,
        a: *const f32,
        a_len: usize,
        q: *const f32,
        q_len: usize,
        h: *const f32,
        h_len: usize,
        r: *const f32,
        r_len: usize,
        card: *mut u8,
        card_len: usize,
        length: *mut usize,
    ) -> usize;
    pub fn yurgamysh_card_length(states: usize, observations: usize, length: *mut usize) -> usize;
    pub fn yurgamysh_cholesky_decompose_lower(n: usize, t: *mut f32, t_len: usize) -> usize;
    pub fn yurgamysh_invert_l_cholesky(
        n: usize,
        l: *const f32,
        l_len: usize,
        inv: *mut f32,
        inv_len: usize,
    ) -> usize;
    pub fn yurgamysh_get(
        rows: usize,
        cols: usize,
        m: *const f32,
        m_len: usize,
        row: usize,
        column: usize,
        value: *mut f32,
    ) -> usize;
    pub fn yurgamysh_set(
        rows: usize,
        cols: usize,
        m: *mut f32,
        m_len: usize,
        row: usize,
        column: usize,
        value: f32,
    ) -> usize;
    pub fn yurgamysh_set_symmetric(
        n: usize,
        m: *mut f32,
        m_len: usize,
        row: usize,
        column: usize,
        value: f32,
    ) -> usize;
    pub fn yurgamysh_get_row_copy(
        rows: usize,
        cols: usize,
        m: *const f32,
        m_len: usize,
        row: usize,
        row_data: *mut f32,
        row_data_len: usize,
    ) -> usize;
    pub fn yurgamysh_get_column_copy(
        rows: usize,
        cols: usize,
        m: *const f32,
        m_len: usize,
        column: usize,
        column_data: *mut f32,
        column_data_len: usize,
    ) -> usize;
    pub fn yurgamysh_copy_to(
        rows: usize,
        cols: usize,
        m: *const f32,
        m_len: usize,
        target: *mut f32,
        target_len: usize,
    ) -> usize;
    pub fn yurgamysh_set_all(rows: usize, cols: usize, m: *mut f32, m_len: usize, x: f32) -> usize;
    pub fn yurgamysh_set_zero(rows: usize, cols: usize, m: *mut f32, m_len: usize) -> usize;
    pub fn yurgamysh_set_diagonal_to_scalar(n: usize, m: *mut f32, m_len: usize, value: f32) -> usize;
    pub fn yurgamysh_make_scalar(n: usize, m: *mut f32, m_len: usize, diagonal: f32) -> usize;
    pub fn yurgamysh_make_identity(n: usize, m: *mut f32, m_len: usize) -> usize;
    pub fn yurgamysh_make_comatrix(
        n: usize,
        m: *mut f32,
        m_len: usize,
        diagonal: f32,
        off_diagonal: f32,
    ) -> usize;
    pub fn yurgamysh_mult(
        rows: usize,
        inner: usize,
        cols: usize,
        a: *const f32,
        a_len: usize,
        b: *const f32,
        b_len: usize,
        c: *mut f32,
        c_len: usize,
    ) -> usize;
    pub fn yurgamysh_mult_buffered(
        rows: usize,
        inner: usize,
        cols: usize,
        a: *const f32,
        a_len: usize,
        b: *const f32,
        b_len: usize,
        c: *mut f32,
        c_len: usize,
        baux: *mut f32,
        baux_len: usize,
    ) -> usize;
    pub fn yurgamysh_mult_transb(
        rows: usize,
        inner: usize,
        cols: usize,
        a: *const f32,
        a_len: usize,
        b: *const f32,
        b_len: usize,
        c: *mut f32,
        c_len: usize,
    ) -> usize;
    pub fn yurgamysh_multadd_transb(
        rows: usize,
        inner: usize,
        cols: usize,
        a: *const f32,
        a_len: usize,
        b: *const f32,
        b_len: usize,
        c: *mut f32,
        c_len: usize,
    ) -> usize;
    pub fn yurgamysh_multscale_transb(
        rows: usize,
        inner: usize,
        cols: usize,
        a: *const f32,
        a_len: usize,
        b: *const f32,
        b_len: usize,
        scale: f32,
        c: *mut f32,
        c_len: usize,
    ) -> usize;
    pub fn yurgamysh_mult_rowvector(
        rows: usize,
        inner: usize,
        a: *const f32,
        a_len: usize,
        x: *const f32,
        x_len: usize,
        c: *mut f32,
        c_len: usize,
    ) -> usize;
    pub fn yurgamysh_multadd_rowvector(
        rows: usize,
        inner: usize,
        a: *const f32,
        a_len: usize,
        x: *const f32,
        x_len: usize,
        c: *mut f32,
        c_len: usize,
    ) -> usize;
    pub fn yurgamysh_sub(
        rows: usize,
        cols: usize,
        a: *const f32,
        a_len: usize,
        b: *const f32,
        b_len: usize,
        c: *mut f32,
        c_len: usize,
    ) -> usize;
    pub fn yurgamysh_sub_inplace_a(
        rows: usize,
        cols: usize,
        a: *mut f32,
        a_len: usize,
        b: *const f32,
        b_len: usize,
    ) -> usize;
    pub fn yurgamysh_sub_inplace_b(
        rows: usize,
        cols: usize,
        a: *const f32,
        a_len: usize,
        b: *mut f32,
        b_len: usize,
    ) -> usize;
    pub fn yurgamysh_add_inplace_a(
        rows: usize,
        cols: usize,
        a: *mut f32,
        a_len: usize,
        b: *const f32,
        b_len: usize,
    ) -> usize;
    pub fn yurgamysh_add_inplace_b(
        rows: usize,
        cols: usize,
        a: *const f32,
        a_len: usize,
        b: *mut f32,
        b_len: usize,
    ) -> usize;
    pub fn yurgamysh_square_root(x: f32) -> f32;
    pub fn yurgamysh_recip(v: f32) -> f32;
}

//! What the archive exports, and a filter of known size over it.

use crate::model::Model;

extern "C" {
    fn yurgamysh_predict(
        n: usize,
        x: *mut f32,
        x_len: usize,
        a: *const f32,
        a_len: usize,
        p: *mut f32,
        p_len: usize,
        q: *const f32,
        q_len: usize,
        predicted: *mut f32,
        predicted_len: usize,
        temp: *mut f32,
        temp_len: usize,
    ) -> usize;
    fn yurgamysh_correct(
        n: usize,
        m: usize,
        x: *mut f32,
        x_len: usize,
        p: *mut f32,
        p_len: usize,
        h: *const f32,
        h_len: usize,
        z: *const f32,
        z_len: usize,
        r: *const f32,
        r_len: usize,
        y: *mut f32,
        y_len: usize,
        s: *mut f32,
        s_len: usize,
        k: *mut f32,
        k_len: usize,
        temp_s_inv: *mut f32,
        temp_s_inv_len: usize,
        temp_hp: *mut f32,
        temp_hp_len: usize,
        temp_pht: *mut f32,
        temp_pht_len: usize,
        temp_khp: *mut f32,
        temp_khp_len: usize,
    ) -> usize;
    fn yurgamysh_cholesky_decompose_lower(n: usize, t: *mut f32, t_len: usize) -> usize;
    fn yurgamysh_square_root(x: f32) -> f32;
    fn yurgamysh_one_state_predict(yarn: *mut OneState);
    fn yurgamysh_one_state_correct(yarn: *mut OneState, z: f32) -> usize;
    fn yurgamysh_feeders_predict(feeders: *mut OneState, feeders_len: usize) -> usize;
    fn yurgamysh_feeders_correct(
        feeders: *mut OneState,
        feeders_len: usize,
        readings: *const f32,
        readings_len: usize,
        counts: *mut Counts,
    ) -> usize;
    fn yurgamysh_card_read(
        card: *const u8,
        card_len: usize,
        a: *mut f32,
        a_len: usize,
        q: *mut f32,
        q_len: usize,
        h: *mut f32,
        h_len: usize,
        r: *mut f32,
        r_len: usize,
        states: *mut usize,
        observations: *mut usize,
    ) -> usize;
    fn yurgamysh_card_write(
        states: usize,
        observations: usize,
        a: *const f32,
        a_len: usize,
        q: *const f32,
        q_len: usize,
        h: *const f32,
        h_len: usize,
        r: *const f32,
        r_len: usize,
        card: *mut u8,
        card_len: usize,
        length: *mut usize,
    ) -> usize;
}

#[derive(Clone, Copy)]
#[repr(C)]
pub struct OneState {
    pub x: f32,
    pub p: f32,
    pub a: f32,
    pub q: f32,
    pub h: f32,
    pub r: f32,
    pub blind: u8,
}

impl OneState {
    pub fn new([x, p, a, q, h, r]: [f32; 6], blind: u8) -> OneState {
        OneState {
            x,
            p,
            a,
            q,
            h,
            r,
            blind,
        }
    }
}

/// How many of a row were accepted, and the index of the first refused, or how many they are.
#[derive(Clone, Copy, PartialEq, Eq)]
#[repr(C)]
pub struct Counts {
    pub accepted: usize,
    pub first_refused: usize,
}

impl Counts {
    pub fn of(accepted: usize, first_refused: usize) -> Counts {
        Counts {
            accepted,
            first_refused,
        }
    }
}

pub struct Filter<const N: usize, const M: usize, const NN: usize, const MN: usize, const MM: usize>
{
    pub x: [f32; N],
    pub a: [f32; NN],
    pub p: [f32; NN],
    pub q: [f32; NN],
    pub predicted: [f32; N],
    pub temp: [f32; NN],
    pub h: [f32; MN],
    pub z: [f32; M],
    pub r: [f32; MM],
    pub y: [f32; M],
    pub s: [f32; MM],
    pub k: [f32; MN],
    pub s_inv: [f32; MM],
    pub hp: [f32; MN],
    pub pht: [f32; MN],
    pub khp: [f32; NN],
}

impl<const N: usize, const M: usize, const NN: usize, const MN: usize, const MM: usize>
    Filter<N, M, NN, MN, MM>
{
    pub fn new(from: &Model<N, M, NN, MN, MM>) -> Self {
        Filter {
            x: from.x,
            a: from.a,
            p: from.p,
            q: from.q,
            predicted: [0.0; N],
            temp: [0.0; NN],
            h: from.h,
            z: from.z[0],
            r: from.r,
            y: [0.0; M],
            s: [0.0; MM],
            k: [0.0; MN],
            s_inv: [0.0; MM],
            hp: [0.0; MN],
            pht: [0.0; MN],
            khp: [0.0; NN],
        }
    }

    #[inline(always)]
    pub fn predict(&mut self) -> usize {
        self.predict_with(NN)
    }

    /// The last buffer lent with this length: with 0 the call is refused after all its tests.
    #[inline(always)]
    pub fn predict_with(&mut self, temp_len: usize) -> usize {
        // SAFETY: arrays of their own, each with its length or a smaller one.
        unsafe {
            yurgamysh_predict(
                N,
                self.x.as_mut_ptr(),
                N,
                self.a.as_ptr(),
                NN,
                self.p.as_mut_ptr(),
                NN,
                self.q.as_ptr(),
                NN,
                self.predicted.as_mut_ptr(),
                N,
                self.temp.as_mut_ptr(),
                temp_len,
            )
        }
    }

    #[inline(always)]
    pub fn correct(&mut self) -> usize {
        self.correct_with(NN)
    }

    /// The last buffer lent with this length: with 0 the call is refused after all its tests.
    #[inline(always)]
    pub fn correct_with(&mut self, khp_len: usize) -> usize {
        // SAFETY: as above.
        unsafe {
            yurgamysh_correct(
                N,
                M,
                self.x.as_mut_ptr(),
                N,
                self.p.as_mut_ptr(),
                NN,
                self.h.as_ptr(),
                MN,
                self.z.as_ptr(),
                M,
                self.r.as_ptr(),
                MM,
                self.y.as_mut_ptr(),
                M,
                self.s.as_mut_ptr(),
                MM,
                self.k.as_mut_ptr(),
                MN,
                self.s_inv.as_mut_ptr(),
                MM,
                self.hp.as_mut_ptr(),
                MN,
                self.pht.as_mut_ptr(),
                MN,
                self.khp.as_mut_ptr(),
                khp_len,
            )
        }
    }
}

#[inline(always)]
pub fn decompose(n: usize, t: &mut [f32]) -> usize {
    // SAFETY: one slice with its length.
    unsafe { yurgamysh_cholesky_decompose_lower(n, t.as_mut_ptr(), t.len()) }
}

#[inline(always)]
pub fn square_root(x: f32) -> f32 {
    // SAFETY: a number.
    unsafe { yurgamysh_square_root(x) }
}

#[inline(always)]
pub fn one_state_predict(yarn: &mut OneState) {
    // SAFETY: one record.
    unsafe { yurgamysh_one_state_predict(yarn) }
}

#[inline(always)]
pub fn one_state_correct(yarn: &mut OneState, z: f32) -> usize {
    // SAFETY: one record.
    unsafe { yurgamysh_one_state_correct(yarn, z) }
}

#[inline(always)]
pub fn feeders_predict(feeders: &mut [OneState]) -> usize {
    // SAFETY: one slice with its length.
    unsafe { yurgamysh_feeders_predict(feeders.as_mut_ptr(), feeders.len()) }
}

#[inline(always)]
pub fn feeders_correct(feeders: &mut [OneState], z: &[f32], counts: &mut Counts) -> usize {
    // SAFETY: two slices with their lengths, and one record of counts.
    unsafe {
        yurgamysh_feeders_correct(
            feeders.as_mut_ptr(),
            feeders.len(),
            z.as_ptr(),
            z.len(),
            counts,
        )
    }
}

/// What a card is read into, and written from.
pub struct Settings<const NN: usize, const MN: usize, const MM: usize> {
    pub states: usize,
    pub observations: usize,
    pub a: [f32; NN],
    pub q: [f32; NN],
    pub h: [f32; MN],
    pub r: [f32; MM],
}

impl<const NN: usize, const MN: usize, const MM: usize> Settings<NN, MN, MM> {
    pub fn new() -> Self {
        Settings {
            states: 0,
            observations: 0,
            a: [0.0; NN],
            q: [0.0; NN],
            h: [0.0; MN],
            r: [0.0; MM],
        }
    }

    #[inline(always)]
    pub fn read(&mut self, card: &[u8]) -> usize {
        // SAFETY: a slice and arrays of their own, each with its length, and two numbers.
        unsafe {
            yurgamysh_card_read(
                card.as_ptr(),
                card.len(),
                self.a.as_mut_ptr(),
                NN,
                self.q.as_mut_ptr(),
                NN,
                self.h.as_mut_ptr(),
                MN,
                self.r.as_mut_ptr(),
                MM,
                &mut self.states,
                &mut self.observations,
            )
        }
    }

    #[inline(always)]
    pub fn write(&self, card: &mut [u8], length: &mut usize) -> usize {
        // SAFETY: arrays and a slice of their own, each with its length, and a number.
        unsafe {
            yurgamysh_card_write(
                self.states,
                self.observations,
                self.a.as_ptr(),
                NN,
                self.q.as_ptr(),
                NN,
                self.h.as_ptr(),
                MN,
                self.r.as_ptr(),
                MM,
                card.as_mut_ptr(),
                card.len(),
                length,
            )
        }
    }
}

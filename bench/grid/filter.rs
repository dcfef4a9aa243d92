//! A filter whose sizes are known at run time alone, over buffers of exactly as many numbers as it needs,
//! and steps of it by the C functions of an archive.

use crate::model::{fill_covariance, fill_transition, reading, Numbers, READINGS};
use all_sizes::Buffers;
use std::ops::Range;

pub struct Filter {
    pub n: usize,
    pub m: usize,
    pub buffers: Buffers,
    pub readings: Vec<Vec<f32>>,
}

impl Filter {
    /// With the numbers that the model of src/model.rs has at these sizes.
    pub fn new(n: usize, m: usize) -> Filter {
        let mut from = Numbers::new((n * 100 + m) as u64);
        let zeros = |count: usize| vec![0.0; count];
        let mut a = zeros(n * n);
        fill_transition(&mut a, n, &mut from);
        let x = (0..n).map(|_| 1.0 + from.next()).collect();
        let covariance = |size: usize, diagonal: f32, from: &mut Numbers| {
            let mut matrix = zeros(size * size);
            fill_covariance(&mut matrix, size, diagonal, from);
            matrix
        };
        let p = covariance(n, 2.0, &mut from);
        let q = covariance(n, 0.1, &mut from);
        let h = (0..m * n).map(|_| from.next()).collect();
        let r = covariance(m, 0.5, &mut from);
        let mut one_reading = |_| (0..m).map(|_| reading(&mut from)).collect();
        Filter {
            n,
            m,
            readings: (0..READINGS).map(&mut one_reading).collect(),
            buffers: [
                a,
                x,
                p,
                q,
                zeros(n),
                zeros(n * n),
                h,
                r,
                zeros(m),
                zeros(m * m),
                zeros(n * m),
                zeros(m * m),
                zeros(m * n),
                zeros(n * m),
                zeros(n * n),
            ],
        }
    }
}

/// The steps with these numbers, each with the reading of its number, over and over; whether all are done.
pub type Steps = fn(&mut Filter, Range<usize>) -> bool;

macro_rules! steps {
    ($name:ident by $predict:literal and $correct:literal) => {
        pub fn $name(filter: &mut Filter, steps: Range<usize>) -> bool {
            extern "C" {
                #[link_name = $predict]
                fn predict(
                    n: usize,
                    x: *mut f32,
                    x_len: usize,
                    a: *const f32,
                    a_len: usize,
                    p: *mut f32,
                    p_len: usize,
                    q: *const f32,
                    q_len: usize,
                    predicted: *mut f32,
                    predicted_len: usize,
                    temp: *mut f32,
                    temp_len: usize,
                ) -> usize;
                #[link_name = $correct]
                fn correct(
                    n: usize,
                    m: usize,
                    x: *mut f32,
                    x_len: usize,
                    p: *mut f32,
                    p_len: usize,
                    h: *const f32,
                    h_len: usize,
                    z: *const f32,
                    z_len: usize,
                    r: *const f32,
                    r_len: usize,
                    y: *mut f32,
                    y_len: usize,
                    s: *mut f32,
                    s_len: usize,
                    k: *mut f32,
                    k_len: usize,
                    s_inv: *mut f32,
                    s_inv_len: usize,
                    hp: *mut f32,
                    hp_len: usize,
                    pht: *mut f32,
                    pht_len: usize,
                    khp: *mut f32,
                    khp_len: usize,
                ) -> usize;
            }
            let Filter {
                n,
                m,
                buffers,
                readings,
            } = filter;
            let [a, x, p, q, predicted, temp, h, r, y, s, k, s_inv, hp, pht, khp] = buffers;
            let mut codes = 0;
            for step in steps {
                let z = &readings[step % READINGS];
                // SAFETY: vectors of their own, each with its length.
                unsafe {
                    codes |= predict(
                        *n,
                        x.as_mut_ptr(),
                        x.len(),
                        a.as_ptr(),
                        a.len(),
                        p.as_mut_ptr(),
                        p.len(),
                        q.as_ptr(),
                        q.len(),
                        predicted.as_mut_ptr(),
                        predicted.len(),
                        temp.as_mut_ptr(),
                        temp.len(),
                    );
                    codes |= correct(
                        *n,
                        *m,
                        x.as_mut_ptr(),
                        x.len(),
                        p.as_mut_ptr(),
                        p.len(),
                        h.as_ptr(),
                        h.len(),
                        z.as_ptr(),
                        z.len(),
                        r.as_ptr(),
                        r.len(),
                        y.as_mut_ptr(),
                        y.len(),
                        s.as_mut_ptr(),
                        s.len(),
                        k.as_mut_ptr(),
                        k.len(),
                        s_inv.as_mut_ptr(),
                        s_inv.len(),
                        hp.as_mut_ptr(),
                        hp.len(),
                        pht.as_mut_ptr(),
                        pht.len(),
                        khp.as_mut_ptr(),
                        khp.len(),
                    );
                }
            }
            codes == 0
        }
    };
}

steps!(ours by "yurgamysh_predict" and "yurgamysh_correct");
#[cfg(earlier)]
steps!(earlier by "earlier_predict" and "earlier_correct");

/// Ours first, and the earlier archive where one is linked.
#[cfg(not(earlier))]
pub const ARCHIVES: [(&str, Steps); 1] = [("ours", ours)];
#[cfg(earlier)]
pub const ARCHIVES: [(&str, Steps); 2] = [("ours", ours), ("the earlier archive", earlier)];

//! A filter and an observation that own their buffers.

use crate::{correct, innovation, predict, update, Refusal, MAX_SIZE};

/// A size of a type: 1 to 16, or the program does not compile.
const fn sized(size: usize) {
    assert!(size >= 1 && size <= MAX_SIZE, "a size is 1 to 16");
}

/// A filter of N states with the buffers that it needs. Matrices are arrays of rows.
///
/// Every number is 0 until it is set. A size that the library would refuse does not compile:
///
/// ```compile_fail
/// let filter = yurgamysh::Filter::<17>::new();
/// ```
#[derive(Clone, Debug)]
pub struct Filter<const N: usize> {
    x: [f32; N],
    a: [[f32; N]; N],
    p: [[f32; N]; N],
    q: [[f32; N]; N],
    predicted_x: [f32; N],
    temp_p: [[f32; N]; N],
}

impl<const N: usize> Filter<N> {
    /// A filter whose numbers are all 0.
    pub fn new() -> Self {
        const { sized(N) };
        let square = [[0.0; N]; N];
        Filter { x: [0.0; N], a: square, p: square, q: square, predicted_x: [0.0; N], temp_p: square }
    }

    /// The same filter with this estimate, x.
    pub fn with_state_vector(mut self, x: [f32; N]) -> Self {
        self.x = x;
        self
    }

    /// The same filter with this model, A.
    pub fn with_state_transition(mut self, a: [[f32; N]; N]) -> Self {
        self.a = a;
        self
    }

    /// The same filter with this spread of the estimate, P.
    pub fn with_estimate_covariance(mut self, p: [[f32; N]; N]) -> Self {
        self.p = p;
        self
    }

    /// The same filter with this spread that each prediction adds, Q.
    pub fn with_direct_process_noise(mut self, q: [[f32; N]; N]) -> Self {
        self.q = q;
        self
    }

    /// The estimate, x.
    pub fn state_vector(&self) -> &[f32; N] {
        &self.x
    }

    /// The estimate, x, to be set.
    pub fn state_vector_mut(&mut self) -> &mut [f32; N] {
        &mut self.x
    }

    /// The model, A.
    pub fn state_transition(&self) -> &[[f32; N]; N] {
        &self.a
    }

    /// The model, A, to be set.
    pub fn state_transition_mut(&mut self) -> &mut [[f32; N]; N] {
        &mut self.a
    }

    /// The spread of the estimate, P.
    pub fn estimate_covariance(&self) -> &[[f32; N]; N] {
        &self.p
    }

    /// The spread of the estimate, P, to be set.
    pub fn estimate_covariance_mut(&mut self) -> &mut [[f32; N]; N] {
        &mut self.p
    }

    /// The spread that each prediction adds, Q.
    pub fn direct_process_noise(&self) -> &[[f32; N]; N] {
        &self.q
    }

    /// The spread that each prediction adds, Q, to be set.
    pub fn direct_process_noise_mut(&mut self) -> &mut [[f32; N]; N] {
        &mut self.q
    }

    /// `x = A·x` and `P = A·P·Aᵀ + Q`. Nothing can be refused: sizes and buffers fit by their types.
    ///
    /// Nor is x or P tested for what is not finite. After an overflow every correction is refused, with
    /// `Pivot` or `NotFinite`, until x and P are set anew.
    pub fn predict(&mut self) {
        predict(
            N,
            &mut self.x,
            self.a.as_flattened(),
            self.p.as_flattened_mut(),
            self.q.as_flattened(),
            &mut self.predicted_x,
            self.temp_p.as_flattened_mut(),
        )
        .expect("sizes and buffers fit by their types");
    }

    /// x and P as the observation's reading moves them, or one of two refusals: then x and P are as
    /// before.
    ///
    /// - `Pivot(i)`: pivot i of S is not above zero, or not finite.
    /// - `NotFinite`: some entry of the new x or P is an infinity or a NaN, as it always is where a reading
    ///   is one.
    pub fn correct<const M: usize>(&mut self, seen: &mut Observation<N, M>) -> Result<(), Refusal> {
        correct(
            N,
            M,
            &mut self.x,
            self.p.as_flattened_mut(),
            seen.h.as_flattened(),
            &seen.z,
            seen.r.as_flattened(),
            &mut seen.y,
            seen.s.as_flattened_mut(),
            seen.k.as_flattened_mut(),
            seen.temp_s_inv.as_flattened_mut(),
            seen.temp_hp.as_flattened_mut(),
            seen.temp_pht.as_flattened_mut(),
            seen.temp_khp.as_flattened_mut(),
        )
    }

    /// The same, with the innovation put right by `fix` before it is used: a heading that wraps
    /// around, say.
    ///
    /// ```
    /// use yurgamysh::{Filter, Observation};
    ///
    /// let mut filter = Filter::<1>::new().with_state_vector([359.0]).with_estimate_covariance([[1.0]]);
    /// let mut compass = Observation::<1, 1>::new()
    ///     .with_observation_matrix([[1.0]])
    ///     .with_measurement_noise_covariance([[1.0]])
    ///     .with_measurement_vector([1.0]);
    /// filter.correct_with(&mut compass, |y| y[0] += 360.0)?;
    /// assert_eq!(filter.state_vector(), &[360.0]);
    /// # Ok::<(), yurgamysh::Refusal>(())
    /// ```
    pub fn correct_with<const M: usize>(
        &mut self,
        seen: &mut Observation<N, M>,
        fix: impl FnOnce(&mut [f32; M]),
    ) -> Result<(), Refusal> {
        innovation(N, M, &self.x, seen.h.as_flattened(), &seen.z, &mut seen.y)?;
        fix(&mut seen.y);
        update(
            N,
            M,
            &mut self.x,
            self.p.as_flattened_mut(),
            seen.h.as_flattened(),
            seen.r.as_flattened(),
            &seen.y,
            seen.s.as_flattened_mut(),
            seen.k.as_flattened_mut(),
            seen.temp_s_inv.as_flattened_mut(),
            seen.temp_hp.as_flattened_mut(),
            seen.temp_pht.as_flattened_mut(),
            seen.temp_khp.as_flattened_mut(),
        )
    }
}

impl<const N: usize> Default for Filter<N> {
    fn default() -> Self {
        Self::new()
    }
}

/// An observation of M readings of N states with the buffers that a correction needs.
///
/// Every number is 0 until it is set.
#[derive(Clone, Debug)]
pub struct Observation<const N: usize, const M: usize> {
    h: [[f32; N]; M],
    z: [f32; M],
    r: [[f32; M]; M],
    y: [f32; M],
    s: [[f32; M]; M],
    k: [[f32; M]; N],
    temp_s_inv: [[f32; M]; M],
    temp_hp: [[f32; N]; M],
    temp_pht: [[f32; M]; N],
    temp_khp: [[f32; N]; N],
}

impl<const N: usize, const M: usize> Observation<N, M> {
    /// An observation whose numbers are all 0.
    pub fn new() -> Self {
        const {
            sized(N);
            sized(M)
        };
        Observation {
            h: [[0.0; N]; M],
            z: [0.0; M],
            r: [[0.0; M]; M],
            y: [0.0; M],
            s: [[0.0; M]; M],
            k: [[0.0; M]; N],
            temp_s_inv: [[0.0; M]; M],
            temp_hp: [[0.0; N]; M],
            temp_pht: [[0.0; M]; N],
            temp_khp: [[0.0; N]; N],
        }
    }

    /// The same observation with this matrix, H: how readings see states.
    pub fn with_observation_matrix(mut self, h: [[f32; N]; M]) -> Self {
        self.h = h;
        self
    }

    /// The same observation with this spread of the readings, R.
    pub fn with_measurement_noise_covariance(mut self, r: [[f32; M]; M]) -> Self {
        self.r = r;
        self
    }

    /// The same observation with these readings, z.
    pub fn with_measurement_vector(mut self, z: [f32; M]) -> Self {
        self.z = z;
        self
    }

    /// How readings see states, H.
    pub fn observation_matrix(&self) -> &[[f32; N]; M] {
        &self.h
    }

    /// How readings see states, H, to be set.
    pub fn observation_matrix_mut(&mut self) -> &mut [[f32; N]; M] {
        &mut self.h
    }

    /// The spread of the readings, R.
    pub fn measurement_noise_covariance(&self) -> &[[f32; M]; M] {
        &self.r
    }

    /// The spread of the readings, R, to be set.
    pub fn measurement_noise_covariance_mut(&mut self) -> &mut [[f32; M]; M] {
        &mut self.r
    }

    /// The readings, z.
    pub fn measurement_vector(&self) -> &[f32; M] {
        &self.z
    }

    /// The readings, z, to be set.
    pub fn measurement_vector_mut(&mut self) -> &mut [f32; M] {
        &mut self.z
    }

    /// The innovation of the last correction, y = z − H·x, as the `fix` of [`Filter::correct_with`] left
    /// it: of a refused one too. Before the first it is 0.
    pub fn innovation_vector(&self) -> &[f32; M] {
        &self.y
    }

    /// The gain of the last correction, K, whether it was accepted or refused with `NotFinite`. One that was
    /// refused with `Pivot` leaves it as it was; before the first it is 0.
    pub fn kalman_gain(&self) -> &[[f32; M]; N] {
        &self.k
    }

    /// The lower factor L of the spread of the innovation: S = L·Lᵀ, and not S itself. S is H·P·Hᵀ + R
    /// with the P from before the correction.
    ///
    /// - After an accepted correction, and after one that was refused with `NotFinite`, it is L, with +0
    ///   above the diagonal.
    /// - After one that was refused with `Pivot(i)` it is no factor: from the diagonal down, the columns
    ///   before i are those of L; (i, i) is the refused pivot times the reciprocal of the root before it
    ///   (times +0 where i is 0); every other cell is that of S.
    /// - Before the first correction it is 0.
    ///
    /// With y it tells how far off a reading is: yᵀ·S⁻¹·y is the square of the length of v in L·v = y.
    ///
    /// ```
    /// use yurgamysh::{Filter, Observation, Refusal};
    ///
    /// fn distance_squared<const N: usize, const M: usize>(seen: &Observation<N, M>) -> f32 {
    ///     let (l, y) = (seen.innovation_covariance_factor(), seen.innovation_vector());
    ///     let mut v = [0.0; M];
    ///     for i in 0..M {
    ///         let known: f32 = (0..i).map(|j| l[i][j] * v[j]).sum();
    ///         v[i] = (y[i] - known) / l[i][i];
    ///     }
    ///     v.iter().map(|v| v * v).sum()
    /// }
    ///
    /// fn main() -> Result<(), Refusal> {
    ///     let mut filter = Filter::<1>::new().with_state_vector([1.0]).with_estimate_covariance([[3.0]]);
    ///     let mut tension = Observation::<1, 1>::new()
    ///         .with_observation_matrix([[1.0]])
    ///         .with_measurement_noise_covariance([[1.0]])
    ///         .with_measurement_vector([21.0]);
    ///
    ///     // A reading ten spreads away: the filter goes back to what it was.
    ///     let before = filter.clone();
    ///     filter.correct(&mut tension)?;
    ///     assert_eq!(tension.innovation_covariance_factor(), &[[2.0]]);
    ///     assert_eq!(distance_squared(&tension), 100.0);
    ///     if distance_squared(&tension) > 9.0 {
    ///         filter = before;
    ///     }
    ///     assert_eq!(filter.state_vector(), &[1.0]);
    ///     Ok(())
    /// }
    /// ```
    pub fn innovation_covariance_factor(&self) -> &[[f32; M]; M] {
        &self.s
    }
}

impl<const N: usize, const M: usize> Default for Observation<N, M> {
    fn default() -> Self {
        Self::new()
    }
}

//! A step of the original over slices, at every size from 1 to 16. These are 256 filters, each run for a
//! few steps: they are compiled without optimisation, which takes seconds where it would take minutes.

use minikalman::kalman::regular::RegularKalmanBuilder;
use minikalman::lent::Lent;
use minikalman::observations::regular::RegularObservationBuilder;

/// a, x, p, q, predicted_x, temp_p, h, r, y, s, k, temp_s_inv, temp_hp, temp_pht and temp_khp.
pub type Buffers = [Vec<f32>; 15];

type Step = fn(&mut Buffers, &mut [f32]);

fn step_of<const N: usize, const M: usize>(buffers: &mut Buffers, z: &mut [f32]) {
    let [a, x, p, q, predicted, temp, h, r, y, s, k, s_inv, hp, pht, khp] = buffers;
    let mut filter = RegularKalmanBuilder::new::<N, f32>(
        Lent::<N, N>(a),
        Lent::<N, 1>(x),
        Lent::<N, N>(p),
        Lent::<N, N>(q),
        Lent::<N, 1>(predicted),
        Lent::<N, N>(temp),
    );
    let mut seen = RegularObservationBuilder::new::<N, M, f32>(
        Lent::<M, N>(h),
        Lent::<M, 1>(z),
        Lent::<M, M>(r),
        Lent::<M, 1>(y),
        Lent::<M, M>(s),
        Lent::<N, M>(k),
        Lent::<M, M>(s_inv),
        Lent::<M, N>(hp),
        Lent::<N, M>(pht),
        Lent::<N, N>(khp),
    );
    filter.predict();
    filter.correct(&mut seen);
}

macro_rules! with_states {
    ($($n:literal)*) => { [$(with_readings!($n: 1 2 3 4 5 6 7 8 9 10 11 12 13 14 15 16)),*] };
}

macro_rules! with_readings {
    ($n:literal: $($m:literal)*) => { [$(step_of::<$n, $m>),*] };
}

static STEPS: [[Step; 16]; 16] = with_states!(1 2 3 4 5 6 7 8 9 10 11 12 13 14 15 16);

/// Predict and correct, of n states and m readings.
pub fn step(n: usize, m: usize, buffers: &mut Buffers, z: &mut [f32]) {
    STEPS[n - 1][m - 1](buffers, z)
}

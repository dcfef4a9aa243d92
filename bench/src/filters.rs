//! Predict, correct and the chain of both, at one size: ours, the original over arrays of known size,
//! the original over slices, and Eigen's filters where Eigen is there.

use crate::eigen;
use crate::model::{model, Model, READINGS};
use crate::ours;
use crate::report::{Figure, Kind};
use crate::same;
use crate::timing::Plan;
use minikalman::held::Held;
use minikalman::kalman::regular::RegularKalmanBuilder;
use minikalman::lent::Lent;
use minikalman::observations::regular::RegularObservationBuilder;
use std::hint::black_box;

/// The original's filter and observation over arrays, made from a model.
macro_rules! over_arrays {
    ($from:expr) => {
        (
            RegularKalmanBuilder::new::<N, f32>(
                Held::<N, N, NN>($from.a),
                Held::<N, 1, N>($from.x),
                Held::<N, N, NN>($from.p),
                Held::<N, N, NN>($from.q),
                Held::<N, 1, N>([0.0; N]),
                Held::<N, N, NN>([0.0; NN]),
            ),
            RegularObservationBuilder::new::<N, M, f32>(
                Held::<M, N, MN>($from.h),
                Held::<M, 1, M>($from.z[0]),
                Held::<M, M, MM>($from.r),
                Held::<M, 1, M>([0.0; M]),
                Held::<M, M, MM>([0.0; MM]),
                Held::<N, M, MN>([0.0; MN]),
                Held::<M, M, MM>([0.0; MM]),
                Held::<M, N, MN>([0.0; MN]),
                Held::<N, M, MN>([0.0; MN]),
                Held::<N, N, NN>([0.0; NN]),
            ),
        )
    };
}

/// The sixteen buffers of a filter and its observation, each a vector whose length the compiler
/// cannot see.
fn buffers<const N: usize, const M: usize, const NN: usize, const MN: usize, const MM: usize>(
    from: &Model<N, M, NN, MN, MM>,
) -> [Vec<f32>; 16] {
    black_box([
        from.a.to_vec(),
        from.x.to_vec(),
        from.p.to_vec(),
        from.q.to_vec(),
        vec![0.0; N],
        vec![0.0; NN],
        from.h.to_vec(),
        from.z[0].to_vec(),
        from.r.to_vec(),
        vec![0.0; M],
        vec![0.0; MM],
        vec![0.0; MN],
        vec![0.0; MM],
        vec![0.0; MN],
        vec![0.0; MN],
        vec![0.0; NN],
    ])
}

/// The same over slices.
macro_rules! over_slices {
    ($buffers:expr) => {{
        let [a, x, p, q, predicted, temp, h, z, r, y, s, k, s_inv, hp, pht, khp] = &mut $buffers;
        (
            RegularKalmanBuilder::new::<N, f32>(
                Lent::<N, N>(a),
                Lent::<N, 1>(x),
                Lent::<N, N>(p),
                Lent::<N, N>(q),
                Lent::<N, 1>(predicted),
                Lent::<N, N>(temp),
            ),
            RegularObservationBuilder::new::<N, M, f32>(
                Lent::<M, N>(h),
                Lent::<M, 1>(z),
                Lent::<M, M>(r),
                Lent::<M, 1>(y),
                Lent::<M, M>(s),
                Lent::<N, M>(k),
                Lent::<M, M>(s_inv),
                Lent::<M, N>(hp),
                Lent::<N, M>(pht),
                Lent::<N, N>(khp),
            ),
        )
    }};
}

/// Steps of the chain, all three ways; every buffer of ours is that of the original, bit for bit.
fn compare<const N: usize, const M: usize, const NN: usize, const MN: usize, const MM: usize>(
    steps: usize,
) -> Result<(), String> {
    let from = model::<N, M, NN, MN, MM>();
    let mut ours = ours::Filter::new(&from);
    let (mut filter, mut seen) = over_arrays!(from);
    let mut lent = buffers(&from);
    for step in 0..steps {
        let z = from.z[step % READINGS];
        ours.z = z;
        if (ours.predict(), ours.correct()) != (0, 0) {
            return Err(format!("({N}, {M}), step {step}: ours refuses"));
        }
        seen.measurement_vector_mut().0 = z;
        filter.predict();
        filter.correct(&mut seen);
        lent[7].copy_from_slice(&z);
        {
            let (mut filter, mut seen) = over_slices!(lent);
            filter.predict();
            filter.correct(&mut seen);
        }
        let o = &ours;
        let mine: [&[f32]; 16] = [
            &o.a,
            &o.x,
            &o.p,
            &o.q,
            &o.predicted,
            &o.temp,
            &o.h,
            &o.z,
            &o.r,
            &o.y,
            &o.s,
            &o.k,
            &o.s_inv,
            &o.hp,
            &o.pht,
            &o.khp,
        ];
        let agree = mine.iter().zip(&lent).all(|(a, b)| same(a, b))
            && same(&o.x, &filter.state_vector().0)
            && same(&o.p, &filter.estimate_covariance().0);
        if !agree {
            return Err(format!(
                "({N}, {M}), step {step}: ours and the original differ"
            ));
        }
    }
    Ok(())
}

pub fn run<const N: usize, const M: usize, const NN: usize, const MN: usize, const MM: usize>(
    plan: Plan,
    figures: &mut Vec<Figure>,
) -> Result<(), String> {
    compare::<N, M, NN, MN, MM>(1000)?;
    let from = black_box(model::<N, M, NN, MN, MM>());
    let mut ours = ours::Filter::new(&from);
    let (mut filter, mut seen) = over_arrays!(from);
    let mut lent = buffers(&from);
    let (mut slices, mut slices_seen) = over_slices!(lent);
    let mut both = eigen::both(&from)?;

    let times = eigen::in_turns_with(
        plan,
        [
            &mut |count| {
                for _ in 0..count {
                    let f = black_box(&mut ours);
                    f.x = from.x;
                    f.p = from.p;
                    black_box(f).predict();
                }
            },
            &mut |count| {
                for _ in 0..count {
                    let f = black_box(&mut filter);
                    f.state_vector_mut().0 = from.x;
                    f.estimate_covariance_mut().0 = from.p;
                    black_box(f).predict();
                }
            },
            &mut |count| {
                for _ in 0..count {
                    let f = black_box(&mut slices);
                    f.state_vector_mut().0.copy_from_slice(&from.x);
                    f.estimate_covariance_mut().0.copy_from_slice(&from.p);
                    black_box(f).predict();
                }
            },
        ],
        &mut both,
        Kind::Predict,
    );
    figures.push(Figure::filter(Kind::Predict, N, M, times));

    let times = eigen::in_turns_with(
        plan,
        [
            &mut |count| {
                for _ in 0..count {
                    let f = black_box(&mut ours);
                    f.x = from.x;
                    f.p = from.p;
                    black_box(f).correct();
                }
            },
            &mut |count| {
                for _ in 0..count {
                    let (f, s) = black_box((&mut filter, &mut seen));
                    f.state_vector_mut().0 = from.x;
                    f.estimate_covariance_mut().0 = from.p;
                    black_box(f).correct(black_box(s));
                }
            },
            &mut |count| {
                for _ in 0..count {
                    let (f, s) = black_box((&mut slices, &mut slices_seen));
                    f.state_vector_mut().0.copy_from_slice(&from.x);
                    f.estimate_covariance_mut().0.copy_from_slice(&from.p);
                    black_box(f).correct(black_box(s));
                }
            },
        ],
        &mut both,
        Kind::Correct,
    );
    figures.push(Figure::filter(Kind::Correct, N, M, times));

    let times = eigen::in_turns_with(
        plan,
        [
            &mut |count| {
                for step in 0..count {
                    let f = black_box(&mut ours);
                    f.z = from.z[step % READINGS];
                    f.predict();
                    f.correct();
                }
            },
            &mut |count| {
                for step in 0..count {
                    let (f, s) = black_box((&mut filter, &mut seen));
                    s.measurement_vector_mut().0 = from.z[step % READINGS];
                    f.predict();
                    f.correct(s);
                }
            },
            &mut |count| {
                for step in 0..count {
                    let (f, s) = black_box((&mut slices, &mut slices_seen));
                    s.measurement_vector_mut()
                        .0
                        .copy_from_slice(&from.z[step % READINGS]);
                    f.predict();
                    f.correct(s);
                }
            },
        ],
        &mut both,
        Kind::Chain,
    );
    figures.push(Figure::filter(Kind::Chain, N, M, times));
    Ok(())
}

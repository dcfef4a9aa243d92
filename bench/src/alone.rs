//! The decomposition alone, the root, and the one-state filter.

use crate::model::{covariance, model, Numbers, READINGS};
use crate::ours;
use crate::report::{Figure, Kind};
use crate::same;
use crate::stack;
use crate::timing::{in_turns, Plan, Times};
use minikalman::held::Held;
use minikalman::kalman::regular::{RegularKalman, RegularKalmanBuilder};
use minikalman::lent::Lent;
use minikalman::matrix::{MatrixDataType, MatrixMut};
use minikalman::observations::regular::{RegularObservation, RegularObservationBuilder};
use std::hint::black_box;

pub fn decomposition<const N: usize, const NN: usize>(
    plan: Plan,
    figures: &mut Vec<Figure>,
) -> Result<(), String> {
    let start: [f32; NN] = black_box(covariance(N, 2.0, &mut Numbers::new(N as u64)));
    let mut ours = start;
    let mut held = Held::<N, N, NN>(start);
    let mut buffer = black_box(start.to_vec());
    if ours::decompose(N, &mut ours) != 0
        || !held.cholesky_decompose_lower()
        || !same(&ours, &held.0)
    {
        return Err(format!(
            "decomposition at {N}: ours and the original differ"
        ));
    }
    let mut lent = Lent::<N, N>(&mut buffer);
    let times = in_turns(
        plan,
        [
            &mut |count| {
                for _ in 0..count {
                    let t = black_box(&mut ours);
                    *t = start;
                    ours::decompose(N, black_box(t));
                }
            },
            &mut |count| {
                for _ in 0..count {
                    let t = black_box(&mut held);
                    t.0 = start;
                    black_box(t).cholesky_decompose_lower();
                }
            },
            &mut |count| {
                for _ in 0..count {
                    let t = black_box(&mut lent);
                    t.0.copy_from_slice(&start);
                    black_box(t).cholesky_decompose_lower();
                }
            },
        ],
    );
    figures.push(Figure::at(Kind::Decomposition, N, N, times));
    Ok(())
}

/// So many roots, each of the last one times a number: the next waits for the last.
fn chain(numbers: &[f32], count: usize, root: impl Fn(f32) -> f32) -> f32 {
    (0..count).fold(1.0, |last, i| root(last * numbers[i % 1024]))
}

/// A root at a time, each of another number: the next begins before the last is done. Then a chain of them.
pub fn root(plan: Plan, figures: &mut Vec<Figure>) -> Result<(), String> {
    let mut from = Numbers::new(7);
    let numbers: Vec<f32> = (0..1024)
        .map(|_| (1.0 + from.next()).max(1e-3) * (from.next() * 20.0).exp2())
        .collect();
    for &v in &numbers {
        if ours::square_root(v).to_bits() != MatrixDataType::square_root(v).to_bits() {
            return Err(format!("root of {v}: ours and the original differ"));
        }
    }
    let [ours, original] = in_turns(
        plan,
        [
            &mut |count| {
                for i in 0..count {
                    black_box(ours::square_root(numbers[i % 1024]));
                }
            },
            &mut |count| {
                for i in 0..count {
                    black_box(MatrixDataType::square_root(black_box(numbers[i % 1024])));
                }
            },
        ],
    );
    figures.push(Figure::alone(Kind::Root, ours, original));
    let [ours, original] = in_turns(
        plan,
        [
            &mut |count| {
                black_box(chain(&numbers, count, ours::square_root));
            },
            &mut |count| {
                black_box(chain(&numbers, count, MatrixDataType::square_root));
            },
        ],
    );
    figures.push(Figure::alone(Kind::RootChain, ours, original));
    Ok(())
}

type One = Held<1, 1, 1>;
pub type OneFilter = RegularKalman<1, f32, One, One, One, One, One, One>;
pub type OneSeen = RegularObservation<1, 1, f32, One, One, One, One, One, One, One, One, One, One>;

/// The original's filter of one state and its observation, over arrays: those of this record and reading.
#[inline(always)]
pub fn original(yarn: &ours::OneState, z: f32) -> (OneFilter, OneSeen) {
    let one = |v| Held([v]);
    let zero = || Held([0.0]);
    (
        RegularKalmanBuilder::new(
            one(yarn.a),
            one(yarn.x),
            one(yarn.p),
            one(yarn.q),
            zero(),
            zero(),
        ),
        RegularObservationBuilder::new(
            one(yarn.h),
            one(z),
            one(yarn.r),
            zero(),
            zero(),
            zero(),
            zero(),
            zero(),
            zero(),
            zero(),
        ),
    )
}

/// The one-state filter against the original's filter of one state over arrays.
pub fn one_state(plan: Plan, figures: &mut Vec<Figure>) -> Result<(), String> {
    let from = black_box(model::<1, 1, 1, 1, 1>());
    let numbers = [
        from.x[0], from.p[0], from.a[0], from.q[0], from.h[0], from.r[0],
    ];
    let mut yarn = ours::OneState::new(numbers, 0);
    let (mut filter, mut seen) = original(&yarn, from.z[0][0]);
    for step in 0..1000 {
        let z = from.z[step % READINGS];
        seen.measurement_vector_mut().0 = z;
        filter.predict();
        filter.correct(&mut seen);
        ours::one_state_predict(&mut yarn);
        let code = ours::one_state_correct(&mut yarn, z[0]);
        let agree = same(&[yarn.x], &filter.state_vector().0)
            && same(&[yarn.p], &filter.estimate_covariance().0);
        if code != 0 || yarn.blind != 0 || !agree {
            return Err(format!(
                "one state, step {step}: ours and the original differ"
            ));
        }
    }
    let [ours, original] = in_turns(
        plan,
        [
            &mut |count| {
                for _ in 0..count {
                    let y = black_box(&mut yarn);
                    y.x = from.x[0];
                    y.p = from.p[0];
                    ours::one_state_predict(black_box(y));
                }
            },
            &mut |count| {
                for _ in 0..count {
                    let f = black_box(&mut filter);
                    f.state_vector_mut().0 = from.x;
                    f.estimate_covariance_mut().0 = from.p;
                    black_box(f).predict();
                }
            },
        ],
    );
    figures.push(Figure::alone(Kind::OnePredict, ours, original));
    let z = from.z[0][0];
    let [ours, original] = in_turns(
        plan,
        [
            &mut |count| {
                for _ in 0..count {
                    let y = black_box(&mut yarn);
                    y.x = from.x[0];
                    y.p = from.p[0];
                    ours::one_state_correct(black_box(y), z);
                }
            },
            &mut |count| {
                for _ in 0..count {
                    let (f, s) = black_box((&mut filter, &mut seen));
                    f.state_vector_mut().0 = from.x;
                    f.estimate_covariance_mut().0 = from.p;
                    black_box(f).correct(black_box(s));
                }
            },
        ],
    );
    figures.push(Figure::alone(Kind::OneCorrect, ours, original));
    Ok(())
}

/// What a call costs before any work: its parameters and its tests. The last buffer is short.
pub fn refused(plan: Plan) -> Result<[Times; 2], String> {
    let from = black_box(model::<1, 1, 1, 1, 1>());
    let mut ours = ours::Filter::new(&from);
    if ours.predict_with(0) / 100 != 2 || ours.correct_with(0) / 100 != 2 {
        return Err("a short buffer is not refused".into());
    }
    let [predict] = in_turns(
        plan,
        [&mut |count| {
            for _ in 0..count {
                let f = black_box(&mut ours);
                f.x = from.x;
                f.p = from.p;
                black_box(f).predict_with(0);
            }
        }],
    );
    let [correct] = in_turns(
        plan,
        [&mut |count| {
            for _ in 0..count {
                let f = black_box(&mut ours);
                f.x = from.x;
                f.p = from.p;
                black_box(f).correct_with(0);
            }
        }],
    );
    Ok([predict, correct])
}

/// Bytes of stack that a prediction, a correction and a decomposition take, of N states and N readings.
pub fn stacks<const N: usize, const NN: usize>() -> [usize; 3] {
    let from = model::<N, N, NN, NN, NN>();
    let mut ours = ours::Filter::new(&from);
    let mut t = from.p;
    [
        stack::taken(&mut || {
            black_box(black_box(&mut ours).predict());
        }),
        stack::taken(&mut || {
            black_box(black_box(&mut ours).correct());
        }),
        stack::taken(&mut || {
            black_box(ours::decompose(N, black_box(&mut t)));
        }),
    ]
}

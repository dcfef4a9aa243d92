//! A row of feeders: one call for all of them, a call for each, and the original for each.

use crate::alone::{original, OneFilter, OneSeen};
use crate::model::{feeder, reading, Numbers, FEEDERS, READINGS};
use crate::ours::{self, Counts, OneState};
use crate::report::Row;
use crate::same;
use crate::timing::{in_turns, Plan};
use std::array::from_fn;
use std::hint::black_box;

/// Twelve feeders, each with numbers of its own, and what they read in 64 steps.
fn feeders() -> ([OneState; FEEDERS], [[f32; FEEDERS]; READINGS]) {
    let mut from = Numbers::new(FEEDERS as u64);
    (
        from_fn(|_| OneState::new(feeder(&mut from), 0)),
        from_fn(|_| from_fn(|_| reading(&mut from))),
    )
}

type Originals = [(OneFilter, OneSeen); FEEDERS];

fn originals(row: &[OneState; FEEDERS], z: &[f32; FEEDERS]) -> Originals {
    from_fn(|i| original(&row[i], z[i]))
}

/// Steps of the chain, all three ways; x and p of each feeder are the same, bit for bit.
fn steps(steps: usize) -> Result<(), String> {
    let (mut row, z) = feeders();
    let mut each = row;
    let mut twelve = originals(&row, &z[0]);
    for step in 0..steps {
        let z = z[step % READINGS];
        let mut counts = Counts::of(0, 0);
        let codes = (
            ours::feeders_predict(&mut row),
            ours::feeders_correct(&mut row, &z, &mut counts),
        );
        if codes != (0, 0) || counts != Counts::of(FEEDERS, FEEDERS) {
            return Err(format!("row, step {step}: ours refuses"));
        }
        for (i, (filter, seen)) in twelve.iter_mut().enumerate() {
            ours::one_state_predict(&mut each[i]);
            ours::one_state_correct(&mut each[i], z[i]);
            seen.measurement_vector_mut().0 = [z[i]];
            filter.predict();
            filter.correct(seen);
            let [x, p] = [
                filter.state_vector().0[0],
                filter.estimate_covariance().0[0],
            ];
            if !same(&[row[i].x, row[i].p], &[x, p]) || !same(&[each[i].x, each[i].p], &[x, p]) {
                return Err(format!(
                    "row, step {step}, feeder {i}: ours and the original differ"
                ));
            }
        }
    }
    Ok(())
}

/// x and p of each record as they were.
#[inline(always)]
fn restore(row: &mut [OneState; FEEDERS], from: &[OneState; FEEDERS]) {
    for (yarn, from) in row.iter_mut().zip(from) {
        yarn.x = from.x;
        yarn.p = from.p;
    }
}

/// The same of the original's.
#[inline(always)]
fn restore_originals(twelve: &mut Originals, from: &[OneState; FEEDERS]) {
    for ((filter, _), from) in twelve.iter_mut().zip(from) {
        filter.state_vector_mut().0 = [from.x];
        filter.estimate_covariance_mut().0 = [from.p];
    }
}

/// Predict, correct and chain.
pub fn run(plan: Plan) -> Result<[Row; 3], String> {
    steps(1000)?;
    let (from, z) = black_box(feeders());
    let (mut row, mut each) = (from, from);
    let mut twelve = originals(&from, &z[0]);
    let mut counts = Counts::of(0, 0);

    let predict = in_turns(
        plan,
        [
            &mut |count| {
                for _ in 0..count {
                    let f = black_box(&mut row);
                    restore(f, &from);
                    ours::feeders_predict(black_box(f));
                }
            },
            &mut |count| {
                for _ in 0..count {
                    let f = black_box(&mut each);
                    restore(f, &from);
                    for yarn in black_box(f) {
                        ours::one_state_predict(yarn);
                    }
                }
            },
            &mut |count| {
                for _ in 0..count {
                    let f = black_box(&mut twelve);
                    restore_originals(f, &from);
                    for (filter, _) in black_box(f) {
                        filter.predict();
                    }
                }
            },
        ],
    );

    let correct = in_turns(
        plan,
        [
            &mut |count| {
                for _ in 0..count {
                    let f = black_box(&mut row);
                    restore(f, &from);
                    ours::feeders_correct(black_box(f), &z[0], &mut counts);
                }
            },
            &mut |count| {
                for _ in 0..count {
                    let f = black_box(&mut each);
                    restore(f, &from);
                    for (yarn, &z) in black_box(f).iter_mut().zip(&z[0]) {
                        ours::one_state_correct(yarn, z);
                    }
                }
            },
            &mut |count| {
                for _ in 0..count {
                    let f = black_box(&mut twelve);
                    restore_originals(f, &from);
                    for (filter, seen) in black_box(f) {
                        filter.correct(seen);
                    }
                }
            },
        ],
    );

    let chain = in_turns(
        plan,
        [
            &mut |count| {
                for step in 0..count {
                    let f = black_box(&mut row);
                    ours::feeders_predict(f);
                    ours::feeders_correct(f, &z[step % READINGS], &mut counts);
                }
            },
            &mut |count| {
                for step in 0..count {
                    let f = black_box(&mut each);
                    for (yarn, &z) in f.iter_mut().zip(&z[step % READINGS]) {
                        ours::one_state_predict(yarn);
                        ours::one_state_correct(yarn, z);
                    }
                }
            },
            &mut |count| {
                for step in 0..count {
                    let f = black_box(&mut twelve);
                    for ((filter, seen), &z) in f.iter_mut().zip(&z[step % READINGS]) {
                        seen.measurement_vector_mut().0 = [z];
                        filter.predict();
                        filter.correct(seen);
                    }
                }
            },
        ],
    );
    Ok([
        Row::of("predict", predict),
        Row::of("correct", correct),
        Row::of("chain", chain),
    ])
}

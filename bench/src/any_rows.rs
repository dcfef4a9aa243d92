//! Rows of any numbers, compared: one call for all the records, a call for each, and the original for each.

use crate::alone::{original, OneFilter};
use crate::model::{feeder, reading, Numbers, FEEDERS};
use crate::ours::{self, Counts, OneState};
use std::array::from_fn;

/// One more than a call takes.
const PLACES: usize = FEEDERS + 1;

/// Zeros, infinities, NaN (one with its sign set, one signalling), subnormals, the smallest normal
/// numbers, the largest, ones.
const SPECIAL: [u32; 16] = [
    0x0000_0000,
    0x8000_0000,
    0x7f80_0000,
    0xff80_0000,
    0x7fc0_0000,
    0xffc0_0001,
    0x7f80_0001,
    0x0000_0001,
    0x8000_0001,
    0x007f_ffff,
    0x0080_0000,
    0x8080_0000,
    0x7f7f_ffff,
    0xff7f_ffff,
    0x3f80_0000,
    0xbf80_0000,
];

/// Any 32 bits, and as often one of the special numbers.
fn any(from: &mut Numbers) -> f32 {
    let bits = [from.bits() as u32, from.pick(&SPECIAL)];
    f32::from_bits(from.pick(&bits))
}

/// A feeder and its reading: ordinary, ordinary but for one number, or all seven of any kind.
fn any_feeder(from: &mut Numbers) -> (OneState, f32) {
    let [x, p, a, q, h, r] = feeder(from);
    let mut seven = [x, p, a, q, h, r, reading(from)];
    match from.below(4) {
        0 => {}
        1 => seven = from_fn(|_| any(from)),
        _ => seven[from.below(7)] = any(from),
    }
    let [six @ .., z] = seven;
    let blind = [0, 254, 255, from.bits() as u8];
    (OneState::new(six, from.pick(&blind)), z)
}

/// Whether two numbers have the same bits, any NaN being as good as any other.
fn alike(a: f32, b: f32) -> bool {
    a.to_bits() == b.to_bits() || a.is_nan() && b.is_nan()
}

fn rows_alike(a: &[OneState; PLACES], b: &[OneState; PLACES]) -> bool {
    let six = |s: &OneState| [s.x, s.p, s.a, s.q, s.h, s.r];
    let one = |(a, b): (&OneState, &OneState)| {
        a.blind == b.blind && six(a).into_iter().zip(six(b)).all(|(a, b)| alike(a, b))
    };
    a.iter().zip(b).all(one)
}

fn as_original(yarn: &OneState, filter: &OneFilter) -> bool {
    alike(yarn.x, filter.state_vector().0[0]) && alike(yarn.p, filter.estimate_covariance().0[0])
}

/// Whether the first n are predicted alike, all three ways. More than twelve are refused, and stay.
fn predicted_alike(row: &[OneState; PLACES], n: usize) -> bool {
    let (mut one, mut each) = (*row, *row);
    let code = ours::feeders_predict(&mut one[..n]);
    if n > FEEDERS {
        return code == 100 && rows_alike(&one, row);
    }
    let agree = each[..n].iter_mut().all(|yarn| {
        let (mut filter, _) = original(yarn, 0.0);
        filter.predict();
        ours::one_state_predict(yarn);
        as_original(yarn, &filter)
    });
    code == 0 && agree && rows_alike(&one, &each)
}

/// How many of the first n were accepted and refused, where they are corrected alike: in one call, in a
/// call for each, and, those that are accepted, by the original. More than twelve, and fewer readings
/// than records, are refused: row and counts stay.
fn corrected_alike(row: &[OneState; PLACES], n: usize, z: &[f32]) -> Option<[usize; 2]> {
    let (mut one, mut each) = (*row, *row);
    let lent = Counts::of(77, 78);
    let mut counts = lent;
    let code = ours::feeders_correct(&mut one[..n], z, &mut counts);
    if n > FEEDERS || z.len() < n {
        let why = if n > FEEDERS { 100 } else { 201 };
        return (code == why && counts == lent && rows_alike(&one, row)).then_some([0, 0]);
    }
    let mut want = Counts::of(0, n);
    let mut agree = true;
    for (i, yarn) in each[..n].iter_mut().enumerate() {
        let (mut filter, mut seen) = original(yarn, z[i]);
        if ours::one_state_correct(yarn, z[i]) == 0 {
            filter.correct(&mut seen);
            agree &= as_original(yarn, &filter);
            want.accepted += 1;
        } else {
            want.first_refused = want.first_refused.min(i);
        }
    }
    (code == 0 && counts == want && agree && rows_alike(&one, &each))
        .then_some([want.accepted, n - want.accepted])
}

/// Rows of 0 to 13 records, some with too few readings: how many of their corrections were accepted and
/// refused, where nothing differs.
pub fn compare(rows: usize) -> Result<[usize; 2], String> {
    let mut from = Numbers::new(FEEDERS as u64);
    let mut all = [0, 0];
    for place in 0..rows {
        let feeders: [_; PLACES] = from_fn(|_| any_feeder(&mut from));
        let (row, z) = (feeders.map(|f| f.0), feeders.map(|f| f.1));
        let n = from.below(PLACES + 1);
        let m = from.below(4 * PLACES).min(PLACES);
        match corrected_alike(&row, n, &z[..m]) {
            Some([accepted, refused]) if predicted_alike(&row, n) => {
                all = [all[0] + accepted, all[1] + refused];
            }
            _ => {
                return Err(format!(
                    "row {place}, {n} records, {m} readings: one call, a call for each and the original differ"
                ));
            }
        }
    }
    Ok(all)
}

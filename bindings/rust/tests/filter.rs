//! The filter and the observation that own their buffers, and the one-state record.

use yurgamysh::{Filter, Observation, OneState, Refusal};

/// Two states and three readings, none symmetric to another.
fn filter() -> Filter<2> {
    Filter::new()
        .with_state_vector([3.0, 2.0])
        .with_state_transition([[1.0, 1.0], [0.0, 1.0]])
        .with_estimate_covariance([[2.0, 1.0], [1.0, 3.0]])
        .with_direct_process_noise([[1.0, 0.0], [0.0, 1.0]])
}

fn observation() -> Observation<2, 3> {
    Observation::new()
        .with_observation_matrix([[1.0, 0.5], [0.25, 2.0], [1.5, -1.0]])
        .with_measurement_noise_covariance([[4.0, 0.5, 0.25], [0.5, 5.0, 0.75], [0.25, 0.75, 6.0]])
        .with_measurement_vector([7.0, -3.0, 11.0])
}

/// The numbers of a filter, as bits.
fn bits(f: &Filter<2>) -> Vec<u32> {
    f.state_vector().iter().chain(f.estimate_covariance().as_flattened()).map(|x| x.to_bits()).collect()
}

#[test]
fn what_is_set_is_there() {
    let mut f = filter();
    assert_eq!(f.direct_process_noise(), &[[1.0, 0.0], [0.0, 1.0]]);
    assert_eq!(f.state_transition(), &[[1.0, 1.0], [0.0, 1.0]]);
    f.state_transition_mut()[1][0] = 9.0;
    f.direct_process_noise_mut()[0][1] = 8.0;
    f.state_vector_mut()[1] = 7.0;
    f.estimate_covariance_mut()[1][0] = 6.0;
    assert_eq!(f.state_transition(), &[[1.0, 1.0], [9.0, 1.0]]);
    assert_eq!(f.direct_process_noise(), &[[1.0, 8.0], [0.0, 1.0]]);
    assert_eq!(f.state_vector(), &[3.0, 7.0]);
    assert_eq!(f.estimate_covariance(), &[[2.0, 1.0], [6.0, 3.0]]);
    let mut o = observation();
    o.observation_matrix_mut()[2][0] = 9.0;
    o.measurement_noise_covariance_mut()[2][0] = 8.0;
    o.measurement_vector_mut()[1] = 7.0;
    assert_eq!(o.observation_matrix(), &[[1.0, 0.5], [0.25, 2.0], [9.0, -1.0]]);
    assert_eq!(o.measurement_noise_covariance(), &[[4.0, 0.5, 0.25], [0.5, 5.0, 0.75], [8.0, 0.75, 6.0]]);
    assert_eq!(o.measurement_vector(), &[7.0, 7.0, 11.0]);
}

#[test]
fn a_prediction() {
    let mut f = filter();
    f.predict();
    assert_eq!(f.state_vector(), &[5.0, 2.0]);
    assert_eq!(f.estimate_covariance(), &[[8.0, 4.0], [4.0, 4.0]]);
}

/// The filter's correction is that of the function over slices, bit for bit.
#[test]
fn a_correction() {
    let (mut f, mut o) = (filter(), observation());
    assert_eq!(f.correct(&mut o), Ok(()));
    let before = filter();
    let (mut x, mut p) = (*before.state_vector(), *before.estimate_covariance());
    let (mut y, mut k, mut s, mut s_inv) = ([0.0; 3], [[0.0; 3]; 2], [0.0; 9], [0.0; 9]);
    yurgamysh::correct(
        2,
        3,
        &mut x,
        p.as_flattened_mut(),
        o.observation_matrix().as_flattened(),
        o.measurement_vector(),
        o.measurement_noise_covariance().as_flattened(),
        &mut y,
        &mut s,
        k.as_flattened_mut(),
        &mut s_inv,
        &mut [0.0; 6],
        &mut [0.0; 6],
        &mut [0.0; 4],
    )
    .unwrap();
    assert_eq!((f.state_vector(), f.estimate_covariance()), (&x, &p));
    assert_eq!((o.innovation_vector(), o.kalman_gain()), (&y, &k));
    assert_eq!(o.innovation_covariance_factor().as_flattened(), &s);
    assert_eq!(y, [3.0, -7.75, 8.5]);
    // The readings pull the estimate: x is none of what it was, and P is smaller.
    assert!(x[0] != 3.0 && x[1] != 2.0 && p[0][0] < 2.0 && p[1][1] < 3.0);
}

#[test]
fn a_refused_correction_leaves_x_and_p() {
    let (mut f, mut o) = (filter(), observation());
    o.measurement_noise_covariance_mut()[1][1] = -1e6;
    let before = bits(&f);
    assert_eq!(f.correct(&mut o), Err(Refusal::Pivot(1)));
    assert_eq!(bits(&f), before);
    assert_eq!(f.correct_with(&mut o, |_| ()), Err(Refusal::Pivot(1)));
    assert_eq!(bits(&f), before);
    // A wire is broken: its R is infinite. The gain would be zero, and the estimate would look well.
    for broken in [f32::INFINITY, f32::NAN] {
        o.measurement_noise_covariance_mut()[1][1] = broken;
        assert_eq!(f.correct(&mut o), Err(Refusal::Pivot(1)));
        assert_eq!(bits(&f), before);
        assert_eq!(f.correct_with(&mut o, |_| ()), Err(Refusal::Pivot(1)));
        assert_eq!(bits(&f), before);
    }
    // And the filter goes on once the reading's spread is right again.
    *o.measurement_noise_covariance_mut() = *observation().measurement_noise_covariance();
    assert_eq!(f.correct(&mut o), Ok(()));
    assert_ne!(bits(&f), before);
}

/// What is not finite and may arrive as a reading.
const BAD: [f32; 3] = [f32::NAN, f32::INFINITY, f32::NEG_INFINITY];

fn is_finite<const N: usize>(f: &Filter<N>) -> bool {
    f.state_vector().iter().chain(f.estimate_covariance().as_flattened()).all(|v| v.is_finite())
}

/// Each of the readings in turn is bad. K and the factor of S are those of a good reading; y tells which
/// one it was; and the filter goes on as if the correction had not been asked for.
#[test]
fn a_reading_that_is_not_finite_leaves_x_and_p() {
    let (mut good, mut seen) = (filter(), observation());
    good.correct(&mut seen).unwrap();
    for (i, z) in (0..3).flat_map(|i| BAD.map(|z| (i, z))) {
        let (mut f, mut o) = (filter(), observation());
        o.measurement_vector_mut()[i] = z;
        for _ in 0..2 {
            assert_eq!(f.correct(&mut o), Err(Refusal::NotFinite));
            assert_eq!(bits(&f), bits(&filter()));
            assert_eq!(f.correct_with(&mut o, |_| ()), Err(Refusal::NotFinite));
            assert_eq!(bits(&f), bits(&filter()));
        }
        assert_eq!(o.kalman_gain(), seen.kalman_gain());
        assert_eq!(o.innovation_covariance_factor(), seen.innovation_covariance_factor());
        for j in 0..3 {
            let (y, want) = (o.innovation_vector()[j], seen.innovation_vector()[j]);
            assert!(if j == i { y == z || y.is_nan() && z.is_nan() } else { y == want });
        }
        // An innovation that is put right is taken.
        f.clone().correct_with(&mut o, |y| y[i] = 0.0).unwrap();
        *o.measurement_vector_mut() = *observation().measurement_vector();
        f.correct(&mut o).unwrap();
        assert_eq!(bits(&f), bits(&good));
        // And one that is spoilt by its fix is not.
        assert_eq!(f.correct_with(&mut o, |y| y[i] = z), Err(Refusal::NotFinite));
        assert_eq!(bits(&f), bits(&good));
    }
}

/// A spread that overflows where the estimate does not, and an estimate where the spread does not.
#[test]
fn a_correction_that_overflows_leaves_x_and_p() {
    let large = 2f32.powi(100);
    let mut f = filter().with_estimate_covariance([[1.0, large], [large, 1.0]]);
    let mut o = Observation::<2, 1>::new()
        .with_observation_matrix([[0.0, 1.0]])
        .with_measurement_noise_covariance([[3.0]])
        .with_measurement_vector([6.0]);
    let before = bits(&f);
    assert_eq!(f.correct(&mut o), Err(Refusal::NotFinite));
    assert_eq!(bits(&f), before);
    assert_eq!(o.kalman_gain(), &[[2f32.powi(98)], [0.25]]);
    assert_eq!((o.innovation_vector(), o.innovation_covariance_factor()), (&[4.0], &[[2.0]]));

    let mut f =
        filter().with_state_vector([f32::MAX, 2.0]).with_estimate_covariance([[4.0, 0.0], [0.0, 3.0]]);
    let mut o =
        Observation::<2, 1>::new().with_observation_matrix([[0.5, 0.0]]).with_measurement_vector([f32::MAX]);
    let before = bits(&f);
    assert_eq!(f.correct(&mut o), Err(Refusal::NotFinite));
    assert_eq!(bits(&f), before);
    o.measurement_vector_mut()[0] /= 2.0;
    assert_eq!(f.correct(&mut o), Ok(()));
    assert_eq!((f.state_vector(), f.estimate_covariance()), (&[f32::MAX, 2.0], &[[0.0, 0.0], [0.0, 3.0]]));
}

/// A prediction that overflows is done, and from then on every correction is refused, whatever the
/// readings and the predictions between, until x and P are set anew.
#[test]
fn a_filter_that_a_prediction_spoilt() {
    let x_far = filter().with_state_vector([f32::MAX, f32::MAX]);
    let p_far = filter().with_estimate_covariance([[f32::MAX, 1.0], [1.0, f32::MAX]]);
    for (mut f, refusal) in [(x_far, Refusal::NotFinite), (p_far, Refusal::Pivot(0))] {
        let mut o = observation();
        assert!(is_finite(&f));
        f.predict();
        for step in 0..50 {
            assert!(!is_finite(&f));
            let before = bits(&f);
            *o.measurement_vector_mut() = [step as f32, -3.0, if step % 9 == 0 { f32::NAN } else { 11.0 }];
            assert_eq!(f.correct(&mut o), Err(refusal));
            assert_eq!(f.correct_with(&mut o, |y| *y = [0.0; 3]), Err(refusal));
            assert_eq!(bits(&f), before);
            // A model that forgets does not forget this: 0·∞ is NaN.
            *f.state_transition_mut() = if step % 2 == 0 { [[0.0; 2]; 2] } else { [[0.5, 0.0], [0.0, 0.5]] };
            f.predict();
        }
        *f.state_vector_mut() = [3.0, 2.0];
        *f.estimate_covariance_mut() = [[2.0, 1.0], [1.0, 3.0]];
        *o.measurement_vector_mut() = *observation().measurement_vector();
        assert_eq!(f.correct(&mut o), Ok(()));
        assert!(is_finite(&f));
    }
}

/// A night of readings with bad ones among them: each is refused and no other is, x and P are finite all
/// along, and end as if the bad ones had not been there. The record goes the same way.
#[test]
fn a_night_with_bad_readings() {
    let (mut f, mut o) = (filter(), observation());
    let (mut without, mut seen) = (filter(), observation());
    let mut yarn = OneState::new(35.0, 4.0, 1.0, 0.05, 1.0, 2.0);
    let (mut yarn_without, mut bad) = (yarn, 0);
    for step in 0..300 {
        for filter in [&mut f, &mut without] {
            *filter.state_transition_mut() = [[0.9, 0.1], [0.0, 0.9]];
            filter.predict();
        }
        yarn.predict();
        yarn_without.predict();
        let tension = 35.0 + (step % 7) as f32 * 0.25;
        let readings = [tension, -3.0 + (step % 5) as f32, 11.0];
        *o.measurement_vector_mut() = readings;
        if step % 11 == 3 {
            let z = BAD[bad % 3];
            o.measurement_vector_mut()[step % 3] = z;
            assert_eq!(f.correct(&mut o), Err(Refusal::NotFinite));
            assert_eq!((yarn.correct(z), yarn.blind), (Err(Refusal::NotFinite), 1));
            bad += 1;
        } else {
            *seen.measurement_vector_mut() = readings;
            assert_eq!((f.correct(&mut o), without.correct(&mut seen)), (Ok(()), Ok(())));
            assert_eq!((yarn.correct(tension), yarn_without.correct(tension)), (Ok(()), Ok(())));
            assert_eq!(yarn.blind, 0);
        }
        assert!(is_finite(&f) && yarn.x.is_finite() && yarn.p.is_finite());
    }
    assert_eq!((bad, bits(&f), yarn), (27, bits(&without), yarn_without));
    assert!((35.0..37.0).contains(&yarn.x));
}

/// Of 16 states and 16 readings any one may be the bad one.
#[test]
fn one_bad_reading_of_sixteen() {
    for (i, z) in (0..16).flat_map(|i| BAD.map(|z| (i, z))) {
        let mut f = Filter::<16>::new();
        let mut o = Observation::<16, 16>::new();
        for j in 0..16 {
            f.estimate_covariance_mut()[j][j] = 3.0;
            o.observation_matrix_mut()[j][j] = 1.0;
            o.measurement_noise_covariance_mut()[j][j] = 1.0;
        }
        o.measurement_vector_mut()[i] = z;
        let before = f.clone();
        assert_eq!(f.correct(&mut o), Err(Refusal::NotFinite));
        assert_eq!(f.state_vector(), before.state_vector());
        assert_eq!(f.estimate_covariance(), before.estimate_covariance());
        assert_eq!(o.kalman_gain()[i][i], 0.75);
    }
}

/// y, K and the factor of S as whoever rejects far readings finds them: before any correction, after one
/// that was accepted and after one that was refused.
#[test]
fn what_a_correction_leaves_in_the_observation() {
    let (mut f, mut o) = (filter(), observation());
    assert_eq!(o.innovation_vector(), &[0.0; 3]);
    assert_eq!(o.kalman_gain(), &[[0.0; 3]; 2]);
    assert_eq!(o.innovation_covariance_factor(), &[[0.0; 3]; 3]);

    // H·P·Hᵀ + R, which has no rounding here.
    let mut s = [[7.75, 6.125, 1.5], [6.125, 18.125, -1.75], [1.5, -1.75, 10.5]];
    f.correct(&mut o).unwrap();
    let l = *o.innovation_covariance_factor();
    for i in 0..3 {
        for j in 0..3 {
            let entry: f32 = (0..3).map(|k| l[i][k] * l[j][k]).sum();
            assert!((entry - s[i][j]).abs() < 1e-5, "S({i}, {j}) is {entry}");
            assert!(j <= i || l[i][j].to_bits() == 0, "+0 above the diagonal");
        }
    }
    let gain = *o.kalman_gain();
    assert_ne!(gain, [[0.0; 3]; 2]);

    // Refused at pivot 1: y is this correction's, K the last one's, and S is done up to there.
    let mut f = filter();
    o.measurement_noise_covariance_mut()[1][1] = -1e6;
    s[1][1] += -1e6 - 5.0;
    *o.measurement_vector_mut() = [8.0, -3.0, 11.0];
    assert_eq!(f.correct(&mut o), Err(Refusal::Pivot(1)));
    assert_eq!(o.innovation_vector(), &[4.0, -7.75, 8.5]);
    assert_eq!(o.kalman_gain(), &gain);
    let left = *o.innovation_covariance_factor();
    for (i, row) in left.iter().enumerate() {
        assert_eq!(row[0].to_bits(), l[i][0].to_bits(), "column 0 is the factor's");
        assert_eq!(row[2], s[i][2], "column 2 is that of S");
    }
    assert_eq!(left[0][1], s[0][1]);
    let root = yurgamysh::square_root(7.75);
    let pivot = s[1][1] - l[1][0] * l[1][0];
    assert_eq!(left[1][1], pivot * yurgamysh::recip(root));

    // Refused at pivot 0: the pivot times +0 in the corner, and all else of S; y as it was put right.
    o.measurement_noise_covariance_mut()[0][0] = f32::NAN;
    assert_eq!(f.correct(&mut o), Err(Refusal::Pivot(0)));
    assert!(o.innovation_covariance_factor()[0][0].is_nan());
    o.measurement_noise_covariance_mut()[0][0] = -1e6;
    assert_eq!(f.correct_with(&mut o, |y| y[0] = 1.5), Err(Refusal::Pivot(0)));
    assert_eq!(o.innovation_vector(), &[1.5, -7.75, 8.5]);
    assert_eq!(o.kalman_gain(), &gain);
    let left = o.innovation_covariance_factor();
    assert_eq!(left[0][0].to_bits(), (-0.0f32).to_bits());
    assert_eq!((left[0][1], left[0][2], left[1]), (s[0][1], s[0][2], s[1]));
    assert_eq!(left[2], s[2]);
}

#[test]
fn an_innovation_that_is_put_right() {
    let (mut plain, mut fixed) = (filter(), filter());
    plain.correct(&mut observation()).unwrap();
    fixed.correct_with(&mut observation(), |_| ()).unwrap();
    assert_eq!(bits(&plain), bits(&fixed));
    let mut o = observation();
    let mut held = filter();
    held.correct_with(&mut o, |y| {
        assert_eq!(y, &[3.0, -7.75, 8.5]);
        *y = [0.0; 3];
    })
    .unwrap();
    assert_eq!(held.state_vector(), &[3.0, 2.0]);
    assert_eq!(held.estimate_covariance(), plain.estimate_covariance());
}

#[test]
fn the_largest_sizes() {
    let mut f = Filter::<16>::default();
    let mut o = Observation::<16, 16>::default();
    for i in 0..16 {
        f.state_vector_mut()[i] = i as f32;
        f.state_transition_mut()[i][i] = 2.0;
        f.estimate_covariance_mut()[i][i] = 3.0;
        o.observation_matrix_mut()[i][i] = 1.0;
        o.measurement_noise_covariance_mut()[i][i] = 4.0;
        o.measurement_vector_mut()[i] = 2.0 * i as f32 + 4.0;
    }
    f.predict();
    assert_eq!(f.estimate_covariance()[15][15], 12.0);
    // S = 12 + 4, K = 0.75 on the diagonal: the innovation of 4 moves each state by 3.
    f.correct(&mut o).unwrap();
    for i in 0..16 {
        assert_eq!(f.state_vector()[i], 2.0 * i as f32 + 3.0);
        assert_eq!(f.estimate_covariance()[i][i], 3.0);
    }
}

/// The one-state record has the bits of the filter at one state and one reading.
#[test]
fn one_yarn_both_ways() {
    let mut yarn = OneState::new(1.1, 3.3, 0.9, 0.01, 1.3, 0.7);
    let mut f = Filter::<1>::new()
        .with_state_vector([yarn.x])
        .with_state_transition([[yarn.a]])
        .with_estimate_covariance([[yarn.p]])
        .with_direct_process_noise([[yarn.q]]);
    let mut o = Observation::<1, 1>::new()
        .with_observation_matrix([[yarn.h]])
        .with_measurement_noise_covariance([[yarn.r]]);
    for step in 0..100 {
        let z = 2.0 + 0.1 * (step % 7) as f32;
        let settings = (yarn.a, yarn.q, yarn.h, yarn.r);
        yarn.predict();
        assert_eq!((yarn.a, yarn.q, yarn.h, yarn.r), settings);
        yarn.correct(z).unwrap();
        assert_eq!((yarn.a, yarn.q, yarn.h, yarn.r), settings);
        f.predict();
        o.measurement_vector_mut()[0] = z;
        f.correct(&mut o).unwrap();
        assert_eq!(yarn.x.to_bits(), f.state_vector()[0].to_bits());
        assert_eq!(yarn.p.to_bits(), f.estimate_covariance()[0][0].to_bits());
    }
}

/// A feeder that is blind for 300 readings, with a prediction before each: the count shows 1 to 255 and
/// stays there, the estimate keeps, and the first good reading sets the count to 0.
#[test]
fn a_blind_feeder() {
    let well = OneState::new(35.0, 4.0, 1.0, 0.0625, 1.0, 2.0);
    let faults = [
        (well, f32::NAN, Refusal::NotFinite),
        (OneState { r: f32::NEG_INFINITY, ..well }, 36.0, Refusal::Pivot(0)),
        (OneState { p: -1000.0, ..well }, 36.0, Refusal::Pivot(0)),
    ];
    for (mut yarn, z, refusal) in faults {
        for step in 1..=300 {
            yarn.predict();
            let before = yarn;
            assert_eq!(yarn.correct(z), Err(refusal));
            assert_eq!(yarn, OneState { blind: step.min(255) as u8, ..before });
        }
        // The fault is mended, if it was the record's.
        (yarn.p, yarn.r) = (well.p, well.r);
        yarn.predict();
        assert_eq!(yarn.blind, 255);
        assert_eq!((yarn.correct(36.0), yarn.blind), (Ok(()), 0));
        assert!((35.0..36.0).contains(&yarn.x));
    }
}

#[test]
fn refusals_in_words() {
    let words = [
        (Refusal::Size(1), "size 1 is 0 or above 16, or there are more than 12 feeders"),
        (Refusal::Short(3), "buffer 3 is too short"),
        (Refusal::Range(0), "the row is out of range"),
        (Refusal::Range(1), "the column is out of range"),
        (Refusal::Pivot(2), "pivot 2 is not above zero, or not finite"),
        (Refusal::Line(3), "line 3: observations is missing or wrong"),
        (Refusal::Edition, "line 1: the edition is not 1"),
        (Refusal::NotFinite, "some entry of the new x or P is not finite"),
    ];
    for (refusal, text) in words {
        assert_eq!(refusal.to_string(), text);
    }
}

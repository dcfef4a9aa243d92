//! Every function over slices: its result, what it leaves past the matrix, and each refusal. And those of
//! the one-state record.
//!
//! Sizes differ from each other and no matrix is symmetric, so that two that were exchanged would show.

use yurgamysh::*;

/// What stands past each matrix, and must stand there afterwards.
const TAIL: f32 = -77.5;

/// The numbers with one more past them.
fn lent(numbers: &[f32]) -> Vec<f32> {
    let mut buffer = numbers.to_vec();
    buffer.push(TAIL);
    buffer
}

/// Calls with each buffer in turn cut to one number less than its matrix has, which must be refused
/// by that buffer's index, and then to nothing; the call gets the lengths to lend.
fn each_short(needs: &[usize], call: impl Fn(&[usize]) -> Result<(), Refusal>) {
    assert_eq!(call(needs), Ok(()));
    for k in 0..needs.len() {
        for length in [needs[k] - 1, 0] {
            let mut lengths = needs.to_vec();
            lengths[k] = length;
            assert_eq!(call(&lengths), Err(Refusal::Short(k)));
            lengths[k..].fill(0);
            assert_eq!(call(&lengths), Err(Refusal::Short(k)));
        }
    }
}

/// Calls with each size in turn out of range, which must be refused by that size's index.
fn each_size(sizes: &[usize], call: impl Fn(&[usize]) -> Result<(), Refusal>) {
    assert_eq!(call(sizes), Ok(()));
    for k in 0..sizes.len() {
        for bad in [0, 17, usize::MAX] {
            let mut wrong = sizes.to_vec();
            wrong[k] = bad;
            assert_eq!(call(&wrong), Err(Refusal::Size(k)));
            wrong[k..].fill(bad);
            assert_eq!(call(&wrong), Err(Refusal::Size(k)));
        }
    }
}

const A: [f32; 4] = [1.0, 1.0, 0.0, 1.0];
const P: [f32; 4] = [2.0, 1.0, 1.0, 3.0];
const Q: [f32; 4] = [1.0, 0.0, 0.0, 1.0];

#[test]
fn prediction_of_both() {
    let (mut x, mut p) = (lent(&[3.0, 2.0]), lent(&P));
    let (mut predicted, mut temp) = (lent(&[0.0; 2]), lent(&[0.0; 4]));
    predict(2, &mut x, &A, &mut p, &Q, &mut predicted, &mut temp).unwrap();
    assert_eq!(x, [5.0, 2.0, TAIL]);
    assert_eq!(p, [8.0, 4.0, 4.0, 4.0, TAIL]);
    assert_eq!(predicted, [5.0, 2.0, TAIL]);
    assert_eq!(temp, [3.0, 4.0, 1.0, 3.0, TAIL]);
    let call = |n: usize, l: &[usize]| {
        let (mut x, mut p, mut predicted, mut temp) = ([0.0; 2], [0.0; 4], [0.0; 2], [0.0; 4]);
        let (x, p) = (&mut x[..l[0]], &mut p[..l[2]]);
        predict(n, x, &A[..l[1]], p, &Q[..l[3]], &mut predicted[..l[4]], &mut temp[..l[5]])
    };
    each_short(&[2, 4, 4, 4, 2, 4], |l| call(2, l));
    each_size(&[2], |s| call(s[0], &[2, 4, 4, 4, 2, 4]));
}

#[test]
fn prediction_of_x() {
    let (mut x, mut predicted) = (lent(&[3.0, 2.0]), lent(&[0.0; 2]));
    predict_x(2, &mut x, &A, &mut predicted).unwrap();
    assert_eq!((x, predicted), (vec![5.0, 2.0, TAIL], vec![5.0, 2.0, TAIL]));
    let call = |n: usize, l: &[usize]| predict_x(n, &mut [0.0; 2][..l[0]], &A[..l[1]], &mut [0.0; 2][..l[2]]);
    each_short(&[2, 4, 2], |l| call(2, l));
    each_size(&[2], |s| call(s[0], &[2, 4, 2]));
}

#[test]
fn prediction_of_p() {
    let (mut p, mut temp) = (lent(&P), lent(&[0.0; 4]));
    predict_p(2, &A, &mut p, &Q, &mut temp).unwrap();
    assert_eq!(p, [8.0, 4.0, 4.0, 4.0, TAIL]);
    assert_eq!(temp, [3.0, 4.0, 1.0, 3.0, TAIL]);
    let call = |n: usize, l: &[usize]| {
        predict_p(n, &A[..l[0]], &mut [0.0; 4][..l[1]], &Q[..l[2]], &mut [0.0; 4][..l[3]])
    };
    each_short(&[4, 4, 4, 4], |l| call(2, l));
    each_size(&[2], |s| call(s[0], &[4, 4, 4, 4]));
}

#[test]
fn innovation_of_a_reading() {
    let mut y = lent(&[0.0]);
    innovation(2, 1, &[3.0, 2.0], &[1.0, 10.0], &[30.0], &mut y).unwrap();
    assert_eq!(y, [7.0, TAIL]);
    let call = |s: &[usize], l: &[usize]| {
        let (x, h, z) = ([0.0; 2], [0.0; 2], [0.0; 1]);
        innovation(s[0], s[1], &x[..l[0]], &h[..l[1]], &z[..l[2]], &mut [0.0; 1][..l[3]])
    };
    each_short(&[2, 2, 1, 1], |l| call(&[2, 1], l));
    each_size(&[2, 1], |s| call(s, &[2, 2, 1, 1]));
}

/// The buffers of a correction of two states by one reading, each with a tail.
#[derive(Clone)]
struct Room {
    x: Vec<f32>,
    p: Vec<f32>,
    h: Vec<f32>,
    z: Vec<f32>,
    r: Vec<f32>,
    y: Vec<f32>,
    s: Vec<f32>,
    k: Vec<f32>,
    s_inv: Vec<f32>,
    hp: Vec<f32>,
    pht: Vec<f32>,
    khp: Vec<f32>,
}

/// S is 24 + R: with R = 40 it is 64, its root 8, and every number below is exact.
fn room() -> Room {
    Room {
        x: lent(&[3.0, 2.0]),
        p: lent(&[4.0, 2.0, 2.0, 3.0]),
        h: lent(&[1.0, 2.0]),
        z: lent(&[17.0]),
        r: lent(&[40.0]),
        y: lent(&[10.0]),
        s: lent(&[0.5]),
        k: lent(&[0.25; 2]),
        s_inv: lent(&[0.125]),
        hp: lent(&[1.5; 2]),
        pht: lent(&[2.5; 2]),
        khp: lent(&[3.5; 4]),
    }
}

/// The same with this R.
fn noisy(r: f32) -> Room {
    Room { r: lent(&[r]), ..room() }
}

/// What an update from y = 10 leaves: S = 8 + 16 + 40, K = [8 8]/64.
fn corrected() -> Room {
    Room {
        x: lent(&[4.25, 3.25]),
        p: lent(&[3.0, 1.0, 1.0, 2.0]),
        s: lent(&[8.0]),
        k: lent(&[0.125; 2]),
        s_inv: lent(&[0.015625]),
        hp: lent(&[8.0; 2]),
        pht: lent(&[8.0; 2]),
        khp: lent(&[1.0; 4]),
        ..room()
    }
}

/// What a refused pivot leaves of these buffers, where S has the pivot times +0: −0 of S = 24 − 100, NaN
/// of 24 + ∞.
fn refused(before: &Room, pivot: f32) -> Room {
    Room { s: lent(&[pivot]), hp: lent(&[8.0; 2]), ..before.clone() }
}

/// The same numbers to the bit; any NaN for a NaN, but in x and P.
fn same_room(found: &Room, want: &Room) {
    let bits = |numbers: &[f32]| numbers.iter().map(|v| v.to_bits()).collect::<Vec<_>>();
    assert_eq!((bits(&found.x), bits(&found.p)), (bits(&want.x), bits(&want.p)));
    let any_nan = |numbers: &[f32]| numbers.iter().map(|v| (!v.is_nan()).then_some(v.to_bits())).collect();
    let rest = |r: &Room| -> [Vec<Option<u32>>; 10] {
        [&r.h, &r.z, &r.r, &r.y, &r.s, &r.k, &r.s_inv, &r.hp, &r.pht, &r.khp].map(|numbers| any_nan(numbers))
    };
    assert_eq!(rest(found), rest(want));
}

fn update_room(sizes: &[usize], l: &[usize], b: &mut Room) -> Result<(), Refusal> {
    update(
        sizes[0],
        sizes[1],
        &mut b.x[..l[0]],
        &mut b.p[..l[1]],
        &b.h[..l[2]],
        &b.r[..l[3]],
        &b.y[..l[4]],
        &mut b.s[..l[5]],
        &mut b.k[..l[6]],
        &mut b.s_inv[..l[7]],
        &mut b.hp[..l[8]],
        &mut b.pht[..l[9]],
        &mut b.khp[..l[10]],
    )
}

fn correct_room(sizes: &[usize], l: &[usize], b: &mut Room) -> Result<(), Refusal> {
    correct(
        sizes[0],
        sizes[1],
        &mut b.x[..l[0]],
        &mut b.p[..l[1]],
        &b.h[..l[2]],
        &b.z[..l[3]],
        &b.r[..l[4]],
        &mut b.y[..l[5]],
        &mut b.s[..l[6]],
        &mut b.k[..l[7]],
        &mut b.s_inv[..l[8]],
        &mut b.hp[..l[9]],
        &mut b.pht[..l[10]],
        &mut b.khp[..l[11]],
    )
}

/// The lengths of the matrices; each buffer has one more.
const UPDATE: [usize; 11] = [2, 4, 2, 1, 1, 1, 2, 1, 2, 2, 4];
const CORRECT: [usize; 12] = [2, 4, 2, 1, 1, 1, 1, 2, 1, 2, 2, 4];

/// The correction, and the update from its y, give this answer and leave every number so.
fn both(before: &Room, answer: Result<(), Refusal>, after: &Room) {
    let mut b = Room { y: lent(&[0.0]), ..before.clone() };
    assert_eq!(correct_room(&[2, 1], &CORRECT.map(|l| l + 1), &mut b), answer);
    same_room(&b, after);
    let mut b = Room { y: after.y.clone(), ..before.clone() };
    assert_eq!(update_room(&[2, 1], &UPDATE.map(|l| l + 1), &mut b), answer);
    same_room(&b, after);
}

#[test]
fn a_correction_and_an_update() {
    both(&room(), Ok(()), &corrected());
    for (r, pivot) in [(-100.0, -0.0), (f32::INFINITY, f32::NAN), (f32::NAN, f32::NAN)] {
        both(&noisy(r), Err(Refusal::Pivot(0)), &refused(&noisy(r), pivot));
    }
    each_short(&UPDATE, |l| update_room(&[2, 1], l, &mut room()));
    each_size(&[2, 1], |s| update_room(s, &UPDATE, &mut room()));
    each_short(&CORRECT, |l| correct_room(&[2, 1], l, &mut room()));
    each_size(&[2, 1], |s| correct_room(s, &CORRECT, &mut room()));
}

/// What is not finite and may arrive as a reading.
const BAD: [f32; 3] = [f32::NAN, f32::INFINITY, f32::NEG_INFINITY];

/// A bad reading leaves x and P as lent, and the rest as a good one does, but for y.
#[test]
fn a_reading_that_is_not_finite() {
    for z in BAD {
        let bad = Room { z: lent(&[z]), ..room() };
        let left = Room { x: room().x, p: room().p, z: lent(&[z]), y: lent(&[z]), ..corrected() };
        both(&bad, Err(Refusal::NotFinite), &left);
        // A pivot is told first, and a size or a short buffer before it.
        let worse = Room { r: lent(&[-100.0]), y: lent(&[z]), ..bad.clone() };
        both(&worse, Err(Refusal::Pivot(0)), &refused(&worse, -0.0));
        assert_eq!(correct_room(&[2, 1], &[2; 12], &mut bad.clone()), Err(Refusal::Short(1)));
        assert_eq!(correct_room(&[2, 17], &CORRECT, &mut bad.clone()), Err(Refusal::Size(1)));
        assert_eq!(update_room(&[2, 1], &[2; 11], &mut worse.clone()), Err(Refusal::Short(1)));
        assert_eq!(update_room(&[2, 17], &UPDATE, &mut worse.clone()), Err(Refusal::Size(1)));
    }
}

/// x overflows and P does not: y is MAX/2 and K = 2, where P would be [0 0; 0 3].
#[test]
fn an_estimate_that_overflows() {
    let before = Room {
        x: lent(&[f32::MAX, 2.0]),
        p: lent(&[4.0, 0.0, 0.0, 3.0]),
        h: lent(&[0.5, 0.0]),
        z: lent(&[f32::MAX]),
        r: lent(&[0.0]),
        ..room()
    };
    let left = Room {
        y: lent(&[f32::MAX / 2.0]),
        s: lent(&[1.0]),
        k: lent(&[2.0, 0.0]),
        s_inv: lent(&[1.0]),
        hp: lent(&[2.0, 0.0]),
        pht: lent(&[2.0, 0.0]),
        khp: lent(&[4.0, 0.0, 0.0, 0.0]),
        ..before.clone()
    };
    both(&before, Err(Refusal::NotFinite), &left);
    // The largest number is finite.
    let z = lent(&[f32::MAX / 2.0]);
    let after = Room { z: z.clone(), y: lent(&[0.0]), p: lent(&[0.0, 0.0, 0.0, 3.0]), ..left };
    both(&Room { z, ..before }, Ok(()), &after);
}

/// P overflows and x does not: the first state has much in common with the second, the one that is seen.
/// x would be [2^100 3].
#[test]
fn a_spread_that_overflows() {
    let (large, gain) = (2f32.powi(100), 2f32.powi(98));
    let before = Room {
        p: lent(&[1.0, large, large, 1.0]),
        h: lent(&[0.0, 1.0]),
        z: lent(&[6.0]),
        r: lent(&[3.0]),
        ..room()
    };
    let left = Room {
        y: lent(&[4.0]),
        s: lent(&[2.0]),
        k: lent(&[gain, 0.25]),
        s_inv: lent(&[0.25]),
        hp: lent(&[large, 1.0]),
        pht: lent(&[large, 1.0]),
        khp: lent(&[f32::INFINITY, gain, gain, 0.25]),
        ..before.clone()
    };
    both(&before, Err(Refusal::NotFinite), &left);
}

/// What lies past the matrices does not count, and stays.
#[test]
fn what_is_not_finite_past_the_matrices() {
    for tail in [f32::from_bits(0x7fc1_2345), f32::INFINITY] {
        let with_tails = |r: Room| {
            let tailed = |numbers: Vec<f32>| [&numbers[..numbers.len() - 1], &[tail]].concat();
            Room { x: tailed(r.x), p: tailed(r.p), z: tailed(r.z), k: tailed(r.k), khp: tailed(r.khp), ..r }
        };
        both(&with_tails(room()), Ok(()), &with_tails(corrected()));
    }
}

#[test]
fn decomposition_and_inverse() {
    let mut t = lent(&[4.0, 2.0, f32::NAN, 5.0]);
    cholesky_decompose_lower(2, &mut t).unwrap();
    assert_eq!(t, [2.0, 0.0, 1.0, 2.0, TAIL]);
    let mut inv = lent(&[9.0; 4]);
    invert_l_cholesky(2, &t, &mut inv).unwrap();
    assert_eq!(inv, [0.3125, -0.125, -0.125, 0.25, TAIL]);
    let mut refused = lent(&[1.0, 2.0, 2.0, 1.0]);
    assert_eq!(cholesky_decompose_lower(2, &mut refused), Err(Refusal::Pivot(1)));
    assert_eq!(refused, [1.0, 2.0, 2.0, -3.0, TAIL]);
    // +∞ is no pivot: at 0 it leaves ∞·(+0), further down it stays. The inverse asks for none.
    let mut infinite = lent(&[f32::INFINITY]);
    assert_eq!(cholesky_decompose_lower(1, &mut infinite), Err(Refusal::Pivot(0)));
    assert!(infinite[0].is_nan() && infinite[1] == TAIL);
    let mut second = lent(&[4.0, 2.0, 2.0, f32::INFINITY]);
    assert_eq!(cholesky_decompose_lower(2, &mut second), Err(Refusal::Pivot(1)));
    assert_eq!(second, [2.0, 2.0, 1.0, f32::INFINITY, TAIL]);
    let mut largest = lent(&[f32::MAX]);
    cholesky_decompose_lower(1, &mut largest).unwrap();
    assert_eq!(largest, [f32::from_bits(0x5f7f_ffff), TAIL]);
    let mut inv = lent(&[9.0]);
    invert_l_cholesky(1, &[f32::INFINITY], &mut inv).unwrap();
    assert_eq!(inv.iter().map(|v| v.to_bits()).collect::<Vec<_>>(), [0, TAIL.to_bits()]);
    each_short(&[4], |l| cholesky_decompose_lower(2, &mut [1.0, 0.0, 0.0, 1.0][..l[0]]));
    each_size(&[2], |s| cholesky_decompose_lower(s[0], &mut [1.0, 0.0, 0.0, 1.0]));
    each_short(&[4, 4], |l| invert_l_cholesky(2, &Q[..l[0]], &mut [0.0; 4][..l[1]]));
    each_size(&[2], |s| invert_l_cholesky(s[0], &Q, &mut [0.0; 4]));
}

const M: [f32; 6] = [1.0, 2.0, 3.0, 4.0, 5.0, 6.0];

#[test]
fn one_cell() {
    assert_eq!(get(2, 3, &M, 1, 2), Ok(6.0));
    assert_eq!(get(2, 3, &M, 0, 1), Ok(2.0));
    assert_eq!(get(2, 3, &M, 2, 3), Err(Refusal::Range(0)));
    assert_eq!(get(2, 3, &M, 1, 3), Err(Refusal::Range(1)));
    each_short(&[6], |l| get(2, 3, &M[..l[0]], 0, 0).map(|_| ()));
    each_size(&[2, 3], |s| get(s[0], s[1], &M, 0, 0).map(|_| ()));

    let mut m = lent(&M);
    set(2, 3, &mut m, 1, 0, 9.0).unwrap();
    assert_eq!(m, [1.0, 2.0, 3.0, 9.0, 5.0, 6.0, TAIL]);
    assert_eq!(set(2, 3, &mut m, 2, 0, 8.0), Err(Refusal::Range(0)));
    assert_eq!(set(2, 3, &mut m, 0, 3, 8.0), Err(Refusal::Range(1)));
    assert_eq!(m, [1.0, 2.0, 3.0, 9.0, 5.0, 6.0, TAIL]);
    each_short(&[6], |l| set(2, 3, &mut [0.0; 6][..l[0]], 0, 0, 1.0));
    each_size(&[2, 3], |s| set(s[0], s[1], &mut [0.0; 6], 0, 0, 1.0));

    let mut m = lent(&P);
    set_symmetric(2, &mut m, 0, 1, 9.0).unwrap();
    assert_eq!(m, [2.0, 9.0, 9.0, 3.0, TAIL]);
    assert_eq!(set_symmetric(2, &mut m, 2, 0, 8.0), Err(Refusal::Range(0)));
    assert_eq!(set_symmetric(2, &mut m, 0, 2, 8.0), Err(Refusal::Range(1)));
    assert_eq!(m, [2.0, 9.0, 9.0, 3.0, TAIL]);
    each_short(&[4], |l| set_symmetric(2, &mut [0.0; 4][..l[0]], 0, 0, 1.0));
    each_size(&[2], |s| set_symmetric(s[0], &mut [0.0; 4], 0, 0, 1.0));
}

#[test]
fn copies() {
    let mut row = lent(&[0.0; 3]);
    get_row_copy(2, 3, &M, 1, &mut row).unwrap();
    assert_eq!(row, [4.0, 5.0, 6.0, TAIL]);
    assert_eq!(get_row_copy(2, 3, &M, 2, &mut row), Err(Refusal::Range(0)));
    each_short(&[6, 3], |l| get_row_copy(2, 3, &M[..l[0]], 1, &mut [0.0; 3][..l[1]]));
    each_size(&[2, 3], |s| get_row_copy(s[0], s[1], &M, 1, &mut [0.0; 3]));

    let mut column = lent(&[0.0; 2]);
    get_column_copy(2, 3, &M, 1, &mut column).unwrap();
    assert_eq!(column, [2.0, 5.0, TAIL]);
    assert_eq!(get_column_copy(2, 3, &M, 3, &mut column), Err(Refusal::Range(1)));
    each_short(&[6, 2], |l| get_column_copy(2, 3, &M[..l[0]], 1, &mut [0.0; 2][..l[1]]));
    each_size(&[2, 3], |s| get_column_copy(s[0], s[1], &M, 1, &mut [0.0; 2]));

    let mut target = lent(&[0.0; 6]);
    copy_to(2, 3, &M, &mut target).unwrap();
    assert_eq!(target, lent(&M));
    each_short(&[6, 6], |l| copy_to(2, 3, &M[..l[0]], &mut [0.0; 6][..l[1]]));
    each_size(&[2, 3], |s| copy_to(s[0], s[1], &M, &mut [0.0; 6]));
}

/// A fill of a rows by cols matrix: the sizes and the buffer.
type Fill = fn(&[usize], &mut [f32]) -> Result<(), Refusal>;

#[test]
fn fills() {
    let fills: [(usize, Fill, &[f32]); 6] = [
        (2, |s, m| set_all(s[0], s[1], m, 7.0), &[7.0; 6]),
        (2, |s, m| set_zero(s[0], s[1], m), &[0.0; 6]),
        (1, |s, m| set_diagonal_to_scalar(s[0], m, 7.0), &[7.0, 2.0, 3.0, 7.0]),
        (1, |s, m| make_scalar(s[0], m, 7.0), &[7.0, 0.0, 0.0, 7.0]),
        (1, |s, m| make_identity(s[0], m), &[1.0, 0.0, 0.0, 1.0]),
        (1, |s, m| make_comatrix(s[0], m, 7.0, -1.0), &[7.0, -1.0, -1.0, 7.0]),
    ];
    for (sizes, fill, after) in fills {
        let sizes = &[2, 3][..sizes];
        let mut m = lent(&M[..after.len()]);
        fill(sizes, &mut m).unwrap();
        assert_eq!(m, lent(after));
        each_short(&[after.len()], |l| fill(sizes, &mut [0.0; 6][..l[0]]));
        each_size(sizes, |s| fill(s, &mut [0.0; 6]));
    }
}

/// b of 3 by 4, and its transpose.
const B: [f32; 12] = [1.0, 2.0, 3.0, 4.0, 5.0, 6.0, 7.0, 8.0, 9.0, 10.0, 11.0, 12.0];
const BT: [f32; 12] = [1.0, 5.0, 9.0, 2.0, 6.0, 10.0, 3.0, 7.0, 11.0, 4.0, 8.0, 12.0];
const AB: [f32; 8] = [38.0, 44.0, 50.0, 56.0, 83.0, 98.0, 113.0, 128.0];

#[test]
fn products() {
    let start = [1.0; 8];
    let mut c = lent(&start);
    mult(2, 3, 4, &M, &B, &mut c).unwrap();
    assert_eq!(c, lent(&AB));
    each_short(&[6, 12, 8], |l| mult(2, 3, 4, &M[..l[0]], &B[..l[1]], &mut [0.0; 8][..l[2]]));
    each_size(&[2, 3, 4], |s| mult(s[0], s[1], s[2], &M, &B, &mut [0.0; 8]));

    let (mut c, mut baux) = (lent(&start), lent(&[0.0; 3]));
    mult_buffered(2, 3, 4, &M, &B, &mut c, &mut baux).unwrap();
    assert_eq!((c, baux), (lent(&AB), lent(&[1.0, 5.0, 9.0])));
    each_short(&[6, 12, 8, 3], |l| {
        mult_buffered(2, 3, 4, &M[..l[0]], &B[..l[1]], &mut [0.0; 8][..l[2]], &mut [0.0; 3][..l[3]])
    });
    each_size(&[2, 3, 4], |s| mult_buffered(s[0], s[1], s[2], &M, &B, &mut [0.0; 8], &mut [0.0; 3]));

    let mut c = lent(&start);
    mult_transb(2, 3, 4, &M, &BT, &mut c).unwrap();
    assert_eq!(c, lent(&AB));
    each_short(&[6, 12, 8], |l| mult_transb(2, 3, 4, &M[..l[0]], &BT[..l[1]], &mut [0.0; 8][..l[2]]));
    each_size(&[2, 3, 4], |s| mult_transb(s[0], s[1], s[2], &M, &BT, &mut [0.0; 8]));

    let mut c = lent(&start);
    multadd_transb(2, 3, 4, &M, &BT, &mut c).unwrap();
    assert_eq!(c, lent(&AB.map(|x| x + 1.0)));
    each_short(&[6, 12, 8], |l| multadd_transb(2, 3, 4, &M[..l[0]], &BT[..l[1]], &mut [0.0; 8][..l[2]]));
    each_size(&[2, 3, 4], |s| multadd_transb(s[0], s[1], s[2], &M, &BT, &mut [0.0; 8]));

    let mut c = lent(&start);
    multscale_transb(2, 3, 4, &M, &BT, 0.5, &mut c).unwrap();
    assert_eq!(c, lent(&AB.map(|x| x * 0.5)));
    each_short(&[6, 12, 8], |l| {
        multscale_transb(2, 3, 4, &M[..l[0]], &BT[..l[1]], 0.5, &mut [0.0; 8][..l[2]])
    });
    each_size(&[2, 3, 4], |s| multscale_transb(s[0], s[1], s[2], &M, &BT, 0.5, &mut [0.0; 8]));
}

#[test]
fn row_vectors() {
    let x = [1.0, 10.0, 100.0];
    let mut c = lent(&[1.0, 2.0]);
    mult_rowvector(2, 3, &M, &x, &mut c).unwrap();
    assert_eq!(c, [321.0, 654.0, TAIL]);
    each_short(&[6, 3, 2], |l| mult_rowvector(2, 3, &M[..l[0]], &x[..l[1]], &mut [0.0; 2][..l[2]]));
    each_size(&[2, 3], |s| mult_rowvector(s[0], s[1], &M, &x, &mut [0.0; 2]));

    let mut c = lent(&[1.0, 2.0]);
    multadd_rowvector(2, 3, &M, &x, &mut c).unwrap();
    assert_eq!(c, [322.0, 656.0, TAIL]);
    each_short(&[6, 3, 2], |l| multadd_rowvector(2, 3, &M[..l[0]], &x[..l[1]], &mut [0.0; 2][..l[2]]));
    each_size(&[2, 3], |s| multadd_rowvector(s[0], s[1], &M, &x, &mut [0.0; 2]));
}

/// A sum or difference in place: the sizes, a and b.
type InPlace = fn(&[usize], &mut [f32], &mut [f32]) -> Result<(), Refusal>;

#[test]
fn sums_and_differences() {
    let other = [10.0, 20.0, 30.0, 40.0, 50.0, 60.0];
    let less = [-9.0, -18.0, -27.0, -36.0, -45.0, -54.0];
    let more = [11.0, 22.0, 33.0, 44.0, 55.0, 66.0];
    let mut c = lent(&[0.0; 6]);
    sub(2, 3, &M, &other, &mut c).unwrap();
    assert_eq!(c, lent(&less));
    each_short(&[6, 6, 6], |l| sub(2, 3, &M[..l[0]], &other[..l[1]], &mut [0.0; 6][..l[2]]));
    each_size(&[2, 3], |s| sub(s[0], s[1], &M, &other, &mut [0.0; 6]));

    let in_place: [(InPlace, [f32; 6], [f32; 6]); 4] = [
        (|s, a, b| sub_inplace_a(s[0], s[1], a, b), less, other),
        (|s, a, b| sub_inplace_b(s[0], s[1], a, b), M, less),
        (|s, a, b| add_inplace_a(s[0], s[1], a, b), more, other),
        (|s, a, b| add_inplace_b(s[0], s[1], a, b), M, more),
    ];
    for (call, a_after, b_after) in in_place {
        let (mut a, mut b) = (lent(&M), lent(&other));
        call(&[2, 3], &mut a, &mut b).unwrap();
        assert_eq!((a, b), (lent(&a_after), lent(&b_after)));
        each_short(&[6, 6], |l| call(&[2, 3], &mut [0.0; 6][..l[0]], &mut [0.0; 6][..l[1]]));
        each_size(&[2, 3], |s| call(s, &mut [0.0; 6], &mut [0.0; 6]));
    }
}

/// The record's numbers, as bits, and its count.
fn yarn_bits(yarn: &OneState) -> ([u32; 6], u8) {
    ([yarn.x, yarn.p, yarn.a, yarn.q, yarn.h, yarn.r].map(f32::to_bits), yarn.blind)
}

/// The reading is refused so; the count is one up, or still 255, and the numbers keep their bits.
fn blinds(yarn: &mut OneState, z: f32, refusal: Refusal) {
    let (numbers, blind) = yarn_bits(yarn);
    assert_eq!(yarn.correct(z), Err(refusal));
    assert_eq!(yarn_bits(yarn), (numbers, blind.saturating_add(1)));
}

#[test]
fn records() {
    const FRESH: OneState = OneState::new(3.0, 2.0, 5.0, 7.0, 1.0, 1.0);
    assert_eq!(FRESH, OneState { x: 3.0, p: 2.0, a: 5.0, q: 7.0, h: 1.0, r: 1.0, blind: 0 });
    let good = OneState::new(1.0, 3.0, 5.0, 7.0, 1.0, 1.0);
    for blind in 0..=255 {
        let mut yarn = OneState { blind, ..FRESH };
        yarn.predict();
        assert_eq!(yarn, OneState { x: 15.0, p: 57.0, blind, ..FRESH });
        let mut yarn = OneState { blind, ..good };
        yarn.correct(5.0).unwrap();
        assert_eq!(yarn, OneState { x: 4.0, p: 0.75, ..good });
        for (p, r) in [(-3.0, 1.0), (0.75, f32::INFINITY), (f32::INFINITY, 1.0)] {
            blinds(&mut OneState { p, r, blind, ..good }, 5.0, Refusal::Pivot(0));
        }
    }
    // Bad readings; x alone and p alone overflow; the largest x; a pivot first.
    let far = OneState::new(f32::MAX, 4.0, 5.0, 7.0, 0.5, 0.0);
    let wide = OneState { p: 2f32.powi(126), r: 2f32.powi(102) - 2f32.powi(126), ..good };
    let not_finite = [(good, BAD[0]), (good, BAD[1]), (good, BAD[2]), (far, f32::MAX), (wide, 1.0)];
    for (mut yarn, z) in not_finite {
        blinds(&mut yarn, z, Refusal::NotFinite);
        (yarn.p, yarn.r) = (-yarn.p, -1.0);
        blinds(&mut yarn, z, Refusal::Pivot(0));
        assert_eq!(yarn.blind, 2);
    }
    let mut yarn = far;
    yarn.correct(f32::MAX / 2.0).unwrap();
    assert_eq!(yarn, OneState { p: 0.0, ..far });
    // Only the new x and p count: not a, and not q.
    let mut yarn = OneState { a: f32::from_bits(0x7fc1_2345), q: f32::INFINITY, blind: 9, ..good };
    blinds(&mut yarn, f32::NAN, Refusal::NotFinite);
    let after = OneState { x: 4.0, p: 0.75, blind: 0, ..yarn };
    yarn.correct(5.0).unwrap();
    assert_eq!(yarn_bits(&yarn), yarn_bits(&after));
}

/// A call on one feeder of a row leaves the others.
#[test]
fn feeders_in_a_row() {
    let row: [OneState; 12] = std::array::from_fn(|i| OneState::new(i as f32, 3.0, 2.0, 7.0, 1.0, 1.0));
    for i in 0..row.len() {
        let mut feeders = row;
        feeders[i].predict();
        feeders[i].correct(5.0).unwrap();
        blinds(&mut feeders[i], f32::NAN, Refusal::NotFinite);
        feeders[i].r = f32::NEG_INFINITY;
        blinds(&mut feeders[i], 5.0, Refusal::Pivot(0));
        assert_eq!(feeders[i].blind, 2);
        feeders[i] = row[i];
        assert_eq!(feeders, row);
    }
}

#[test]
fn numbers() {
    for (arg, root) in [(4.0, 2.0f32), (0.0, 0.0), (f32::INFINITY, f32::INFINITY), (1e-40, 1e-40f32.sqrt())] {
        assert_eq!(square_root(arg).to_bits(), root.to_bits());
    }
    assert_eq!(square_root(-0.0).to_bits(), (-0.0f32).to_bits());
    assert!(square_root(-1.0).is_nan() && square_root(f32::NAN).is_nan());
    assert_eq!((recip(4.0), recip(-0.0)), (0.25, f32::NEG_INFINITY));
}

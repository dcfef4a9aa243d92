//! Runs the original where the rules ask for something else, and prints a table: the smallest input,
//! what the original gave in this run, what the rules ask for. A program of its own, built twice:
//! without debug assertions and overflow checks, and with them.

use minikalman::kalman::regular::RegularKalmanBuilder;
use minikalman::lent::Lent;
use minikalman::matrix::{Matrix, MatrixMut, SquareMatrix, SquareMatrixMut};
use minikalman::observations::regular::RegularObservationBuilder;
use std::panic::{catch_unwind, AssertUnwindSafe};

const NAN: f32 = f32::NAN;
const UNCHANGED: &str = "nothing changed";

fn words(b: &[f32]) -> String {
    let words: Vec<_> = b
        .iter()
        .map(|v| if v.is_nan() { "NaN".into() } else { format!("{:08x}", v.to_bits()) })
        .collect();
    format!("[{}]", words.join(" "))
}

/// One row: runs `f` on the buffers and shows its value, whether it panicked, and the buffers that changed.
fn row(
    what: &str,
    input: &str,
    names: &str,
    mut lent: Vec<Vec<f32>>,
    f: impl FnOnce(&mut [Vec<f32>]) -> String,
    asked: &str,
) {
    let before = lent.clone();
    let run = catch_unwind(AssertUnwindSafe(|| f(&mut lent)));
    let mut found = match &run {
        Ok(value) if value.is_empty() => "answers".to_string(),
        Ok(value) => format!("answers {value}"),
        Err(e) => {
            let text = e.downcast_ref::<String>().cloned();
            let text = text.or(e.downcast_ref::<&str>().map(|s| s.to_string()));
            let text = text.unwrap_or_default();
            format!("panics ({})", text.lines().next().unwrap_or("").replace('|', "/"))
        }
    };
    let mut changed = vec![];
    for (name, (before, after)) in names.split(' ').zip(before.iter().zip(&lent)) {
        let bits = |b: &[f32]| b.iter().map(|v| v.to_bits()).collect::<Vec<_>>();
        if bits(before) != bits(after) {
            changed.push(format!("{name} {}", words(after)))
        }
    }
    if changed.is_empty() {
        found += &format!("; {UNCHANGED}")
    } else {
        found += &format!("; {}", changed.join(", "))
    }
    println!("| {what} | {input} | {found} | {asked} |");
}

fn word(v: f32) -> String {
    if v.is_nan() {
        "NaN".into()
    } else {
        format!("{:08x}", v.to_bits())
    }
}

fn correct<const N: usize, const M: usize>(b: &mut [Vec<f32>], fix: impl FnMut(&mut [f32])) {
    let [x, p, h, z, r, y, s, k, s_inv, hp, pht, khp] = b else {
        panic!("twelve buffers")
    };
    RegularObservationBuilder::new::<N, M, f32>(
        Lent::<M, N>(h),
        Lent::<M, 1>(z),
        Lent::<M, M>(r),
        Lent::<M, 1>(y),
        Lent::<M, M>(s),
        Lent::<N, M>(k),
        Lent::<M, M>(s_inv),
        Lent::<M, N>(hp),
        Lent::<N, M>(pht),
        Lent::<N, N>(khp),
    )
    .correct_with(&mut Lent::<N, 1>(x), &mut Lent::<N, N>(p), fix)
}

const TWELVE: &str = "x P H z R y S K temp_S_inv temp_HP temp_PHt temp_KHP";

/// x, P, H, z, R at n = m = 1, the work buffers 7; `short` is left empty.
fn one(x: f32, p: f32, z: f32, r: f32, short: Option<usize>) -> Vec<Vec<f32>> {
    let mut b: Vec<Vec<f32>> = [x, p, 1.0, z, r].iter().map(|v| vec![*v]).collect();
    b.extend((0..7).map(|_| vec![7.0]));
    if let Some(at) = short {
        b[at].clear()
    }
    b
}

fn predict<const N: usize>(b: &mut [Vec<f32>]) {
    let [x, a, p, q, predicted, temp] = b else {
        panic!("six buffers")
    };
    RegularKalmanBuilder::new::<N, f32>(
        Lent::<N, N>(a),
        Lent::<N, 1>(x),
        Lent::<N, N>(p),
        Lent::<N, N>(q),
        Lent::<N, 1>(predicted),
        Lent::<N, N>(temp),
    )
    .predict()
}

fn head(title: &str) {
    println!("\n### {title}\n");
    println!("| where | smallest input | the original, as run | the rules |");
    println!("|---|---|---|---|");
}

fn verdict(b: bool) -> String {
    b.to_string()
}

fn main() {
    std::panic::set_hook(Box::new(|_| {}));
    let none = String::new;
    println!("Debug assertions and overflow checks: {}.", if cfg!(debug_assertions) { "on" } else { "off" });

    head("Cells");
    row("get_row_copy", "[1; 2], 2 by 1, row 1; destination [0]", "matrix destination",
        vec![vec![1.0, 2.0], vec![0.0]],
        |b| { let (a, d) = b.split_at_mut(1); Lent::<2, 1>(&mut a[0]).get_row_copy(1, &mut d[0]); none() },
        "destination [40000000], the row asked for");
    row("get_row_copy", "[1 2; 3 4], row 1; destination [0 0]", "matrix destination",
        vec![vec![1.0, 2.0, 3.0, 4.0], vec![0.0; 2]],
        |b| { let (a, d) = b.split_at_mut(1); Lent::<2, 2>(&mut a[0]).get_row_copy(1, &mut d[0]); none() },
        "destination [40400000 40800000]");
    row("get_row_copy, row past the end", "[1], row 1; destination [0]", "matrix destination",
        vec![vec![1.0], vec![0.0]],
        |b| { let (a, d) = b.split_at_mut(1); Lent::<1, 1>(&mut a[0]).get_row_copy(1, &mut d[0]); none() },
        "refusal 3, row; nothing changed");
    row("get_row_copy, row past the end", "[1 2; 3 4], row 2; destination [0 0]", "matrix destination",
        vec![vec![1.0, 2.0, 3.0, 4.0], vec![0.0; 2]],
        |b| { let (a, d) = b.split_at_mut(1); Lent::<2, 2>(&mut a[0]).get_row_copy(2, &mut d[0]); none() },
        "refusal 3, row; nothing changed");
    row("get_row_copy, row past the end", "[1 2; 3 4], row usize::MAX; destination [0 0]", "matrix destination",
        vec![vec![1.0, 2.0, 3.0, 4.0], vec![0.0; 2]],
        |b| { let (a, d) = b.split_at_mut(1); Lent::<2, 2>(&mut a[0]).get_row_copy(usize::MAX, &mut d[0]); none() },
        "refusal 3, row; nothing changed");
    row("get, column past the end", "[1; 2], 2 by 1, row 0, column 1", "matrix",
        vec![vec![1.0, 2.0]],
        |b| word(Lent::<2, 1>(&mut b[0]).get(0, 1)),
        "refusal 3, column");
    row("set, column past the end", "[1; 2], 2 by 1, row 0, column 1, value 9", "matrix",
        vec![vec![1.0, 2.0]],
        |b| { Lent::<2, 1>(&mut b[0]).set(0, 1, 9.0); none() },
        "refusal 3, column; nothing changed");
    row("set_symmetric, column past the end", "[1 2; 3 4], row 0, column 2, value 9", "matrix",
        vec![vec![1.0, 2.0, 3.0, 4.0]],
        |b| { Lent::<2, 2>(&mut b[0]).set_symmetric(0, 2, 9.0); none() },
        "refusal 3, column; nothing changed");
    row("set_symmetric, column past the end, longer buffer", "[1] and a tail [5], row 0, column 1, value 9", "matrix",
        vec![vec![1.0, 5.0]],
        |b| { Lent::<1, 1>(&mut b[0]).set_symmetric(0, 1, 9.0); none() },
        "refusal 3, column; nothing changed");
    row("set_symmetric, row past the end, longer buffer", "[1] and a tail [5], row 1, column 0, value 9", "matrix",
        vec![vec![1.0, 5.0]],
        |b| { Lent::<1, 1>(&mut b[0]).set_symmetric(1, 0, 9.0); none() },
        "refusal 3, row; nothing changed");
    row("set_symmetric, not square", "[1 2], 1 by 2, row 0, column 1, value 9", "matrix",
        vec![vec![1.0, 2.0]],
        |b| { Lent::<1, 2>(&mut b[0]).set_symmetric(0, 1, 9.0); none() },
        "not offered: n by n only");
    row("get, row past the end", "[1], row 1, column 0", "matrix",
        vec![vec![1.0]],
        |b| word(Lent::<1, 1>(&mut b[0]).get(1, 0)),
        "refusal 3, row");
    row("get, row past the end, longer buffer", "[1] and a tail [5], row 1, column 0", "matrix",
        vec![vec![1.0, 5.0]],
        |b| word(Lent::<1, 1>(&mut b[0]).get(1, 0)),
        "refusal 3, row");
    row("set, row past the end, longer buffer", "[1] and a tail [5], row 1, column 0, value 9", "matrix",
        vec![vec![1.0, 5.0]],
        |b| { Lent::<1, 1>(&mut b[0]).set(1, 0, 9.0); none() },
        "refusal 3, row; nothing changed");
    row("get, a row so large that the index wraps", "[1 2], 1 by 2, row 2^63, column 0", "matrix",
        vec![vec![1.0, 2.0]],
        |b| word(Lent::<1, 2>(&mut b[0]).get(std::hint::black_box(1 << 63), 0)),
        "refusal 3, row");
    row("get, a column so large that the index wraps", "[1; 2], 2 by 1, row 1, column usize::MAX", "matrix",
        vec![vec![1.0, 2.0]],
        |b| word(Lent::<2, 1>(&mut b[0]).get(1, std::hint::black_box(usize::MAX))),
        "refusal 3, column");
    row("get_column_copy, column past the end", "[1], column 1; destination [0]", "matrix destination",
        vec![vec![1.0], vec![0.0]],
        |b| { let (a, d) = b.split_at_mut(1); Lent::<1, 1>(&mut a[0]).get_column_copy(1, &mut d[0]); none() },
        "refusal 3, column; nothing changed");
    row("get_column_copy, column past the end, longer buffer", "[1 2; 3 4] and a tail [5], column 2; destination [0 0]", "matrix destination",
        vec![vec![1.0, 2.0, 3.0, 4.0, 5.0], vec![0.0; 2]],
        |b| { let (a, d) = b.split_at_mut(1); Lent::<2, 2>(&mut a[0]).get_column_copy(2, &mut d[0]); none() },
        "refusal 3, column; nothing changed");
    row("get_column_copy, column usize::MAX", "[1 2; 3 4]; destination [0 0]", "matrix destination",
        vec![vec![1.0, 2.0, 3.0, 4.0], vec![0.0; 2]],
        |b| { let (a, d) = b.split_at_mut(1); Lent::<2, 2>(&mut a[0]).get_column_copy(std::hint::black_box(usize::MAX), &mut d[0]); none() },
        "refusal 3, column; nothing changed");
    row("set_all, longer buffer", "1 by 1, [1] and a tail [5], value 9", "matrix",
        vec![vec![1.0, 5.0]],
        |b| { Lent::<1, 1>(&mut b[0]).set_all(9.0); none() },
        "matrix [41100000 40a00000]: fill stops at rows·cols");
    row("clear, longer buffer", "1 by 1, [1] and a tail [5]", "matrix",
        vec![vec![1.0, 5.0]],
        |b| { Lent::<1, 1>(&mut b[0]).clear(); none() },
        "matrix [00000000 40a00000]");
    row("set_zero, longer buffer", "1 by 1, [1] and a tail [5]", "matrix",
        vec![vec![1.0, 5.0]],
        |b| { Lent::<1, 1>(&mut b[0]).set_zero(); none() },
        "matrix [00000000 40a00000]");

    head("Pivots and verdicts");
    row("cholesky_decompose_lower, NaN pivot", "[NaN]", "matrix", vec![vec![NAN]],
        |b| verdict(Lent::<1, 1>(&mut b[0]).cholesky_decompose_lower()),
        "refusal 4, pivot 0; cell NaN");
    row("cholesky_decompose_lower, NaN pivot", "[NaN 1; 1 4]", "matrix", vec![vec![NAN, 1.0, 1.0, 4.0]],
        |b| verdict(Lent::<2, 2>(&mut b[0]).cholesky_decompose_lower()),
        "refusal 4, pivot 0; (0,0) NaN, the rest as lent");
    row("cholesky_decompose_lower, NaN above the diagonal", "[4 NaN; 2 5]", "matrix", vec![vec![4.0, NAN, 2.0, 5.0]],
        |b| verdict(Lent::<2, 2>(&mut b[0]).cholesky_decompose_lower()),
        "refusal 4, pivot 1; matrix [40000000 NaN NaN NaN]: column 0 done, (1,1) holds sum·d");
    row("cholesky_decompose_lower, infinite pivot", "[∞]", "matrix", vec![vec![f32::INFINITY]],
        |b| verdict(Lent::<1, 1>(&mut b[0]).cholesky_decompose_lower()),
        "refusal 4, pivot 0; cell NaN, ∞ times +0");
    row("cholesky_decompose_lower, infinite pivot", "[4 2; 2 ∞]", "matrix", vec![vec![4.0, 2.0, 2.0, f32::INFINITY]],
        |b| verdict(Lent::<2, 2>(&mut b[0]).cholesky_decompose_lower()),
        "refusal 4, pivot 1; matrix [40000000 40000000 3f800000 7f800000]");
    row("cholesky_decompose_lower, infinity minus infinity", "[1 ∞; ∞ ∞]", "matrix",
        vec![vec![1.0, f32::INFINITY, f32::INFINITY, f32::INFINITY]],
        |b| verdict(Lent::<2, 2>(&mut b[0]).cholesky_decompose_lower()),
        "refusal 4, pivot 1; matrix [3f800000 7f800000 7f800000 NaN]");
    row("cholesky_decompose_lower, not square", "2 by 3, [4 2 2; 5 7 8]", "matrix",
        vec![vec![4.0, 2.0, 2.0, 5.0, 7.0, 8.0]],
        |b| verdict(Lent::<2, 3>(&mut b[0]).cholesky_decompose_lower()),
        "not offered: n by n only");
    row("correct, NaN pivot", "x = 1, P = NaN, H = R = 1, z = 5; the rest 7", TWELVE, one(1.0, NAN, 5.0, 1.0, None),
        |b| { correct::<1, 1>(b, |_| {}); none() },
        "refusal 4, pivot 0; y [40800000], S [NaN], temp_HP [NaN], the rest as lent");
    row("correct, R = ∞", "x = 1, P = 3, H = 1, R = ∞, z = 5; the rest 7", TWELVE, one(1.0, 3.0, 5.0, f32::INFINITY, None),
        |b| { correct::<1, 1>(b, |_| {}); none() },
        "refusal 4, pivot 0; y [40800000], S [NaN], temp_HP [40400000], the rest as lent");
    row("correct, P = ∞", "x = 1, P = ∞, H = R = 1, z = 5; the rest 7", TWELVE, one(1.0, f32::INFINITY, 5.0, 1.0, None),
        |b| { correct::<1, 1>(b, |_| {}); none() },
        "refusal 4, pivot 0; y [40800000], S [NaN], temp_HP [7f800000], the rest as lent");
    row("correct, the verdict is not read", "x = 1, P = −3, H = R = 1, z = 5; the rest 7", TWELVE, one(1.0, -3.0, 5.0, 1.0, None),
        |b| { correct::<1, 1>(b, |_| {}); none() },
        "refusal 4, pivot 0; y [40800000], S [80000000], temp_HP [c0400000], the rest as lent");
    row("correct, pivot zero", "x = 1, P = 0, H = 1, R = 0, z = 5; the rest 7", TWELVE, one(1.0, 0.0, 5.0, 0.0, None),
        |b| { correct::<1, 1>(b, |_| {}); none() },
        "refusal 4, pivot 0; y [40800000], S [00000000], temp_HP [00000000], the rest as lent");
    row("update from a given y, the verdict is not read", "x = 1, P = −3, H = R = 1, y = 4 by the closure; the rest 7", TWELVE, one(1.0, -3.0, 0.0, 1.0, None),
        |b| { correct::<1, 1>(b, |y| y[0] = 4.0); none() },
        "refusal 4, pivot 0; S [80000000], temp_HP [c0400000], the rest as lent");
    let mut long = one(1.0, 3.0, 5.0, 1.0, None);
    long[5].push(5.0);
    row("correct_with, longer y", "y's buffer has 2 numbers at m = 1; the closure sets them all to 4", TWELVE, long,
        |b| { let mut seen = 0; correct::<1, 1>(b, |y| { seen = y.len(); y.fill(4.0) }); format!("(the closure sees {seen} numbers)") },
        "the closure is two calls; y's tail is never changed");

    head("Short buffers");
    row("get, short", "2 by 1, buffer [1], row 0, column 0", "matrix", vec![vec![1.0]],
        |b| word(Lent::<2, 1>(&mut b[0]).get(0, 0)),
        "refusal 2, buffer 0");
    row("set, short", "2 by 1, buffer [1], row 0, column 0, value 9", "matrix", vec![vec![1.0]],
        |b| { Lent::<2, 1>(&mut b[0]).set(0, 0, 9.0); none() },
        "refusal 2, buffer 0; nothing changed");
    row("get_row_copy, short matrix", "2 by 1, buffer [1], row 0; destination [0]", "matrix destination",
        vec![vec![1.0], vec![0.0]],
        |b| { let (a, d) = b.split_at_mut(1); Lent::<2, 1>(&mut a[0]).get_row_copy(0, &mut d[0]); none() },
        "refusal 2, buffer 0; nothing changed");
    row("get_column_copy, short matrix", "1 by 2, buffer [1], column 0; destination [0]", "matrix destination",
        vec![vec![1.0], vec![0.0]],
        |b| { let (a, d) = b.split_at_mut(1); Lent::<1, 2>(&mut a[0]).get_column_copy(0, &mut d[0]); none() },
        "refusal 2, buffer 0; nothing changed");
    row("set_all, short", "2 by 1, buffer [1], value 9", "matrix", vec![vec![1.0]],
        |b| { Lent::<2, 1>(&mut b[0]).set_all(9.0); none() },
        "refusal 2, buffer 0; nothing changed");
    row("copy_to, short target", "2 by 1, [1; 2] to [0]", "source target",
        vec![vec![1.0, 2.0], vec![0.0]],
        |b| { let (a, d) = b.split_at_mut(1); Lent::<2, 1>(&mut a[0]).copy_to(&mut Lent::<2, 1>(&mut d[0])); none() },
        "refusal 2, buffer 1; nothing changed");
    row("set_diagonal_to_scalar, short", "n = 2, buffer [1 1 1], value 9", "matrix", vec![vec![1.0; 3]],
        |b| { Lent::<2, 2>(&mut b[0]).set_diagonal_to_scalar(9.0); none() },
        "refusal 2, buffer 0; nothing changed");
    row("make_identity, short", "n = 2, buffer [7 7 7]", "matrix", vec![vec![7.0; 3]],
        |b| { Lent::<2, 2>(&mut b[0]).make_identity(); none() },
        "refusal 2, buffer 0; nothing changed");
    row("mult, short destination", "2 by 1 by 1, [1; 2] times [3], destination [0]", "left right destination",
        vec![vec![1.0, 2.0], vec![3.0], vec![0.0]],
        |b| { let [x, y, z] = b else { return none() }; Lent::<2, 1>(x).mult(&Lent::<1, 1>(y), &mut Lent::<2, 1>(z)); none() },
        "refusal 2, buffer 2; nothing changed");
    row("mult, short left", "2 by 1 by 1, [1] times [3], destination [0 0]", "left right destination",
        vec![vec![1.0], vec![3.0], vec![0.0; 2]],
        |b| { let [x, y, z] = b else { return none() }; Lent::<2, 1>(x).mult(&Lent::<1, 1>(y), &mut Lent::<2, 1>(z)); none() },
        "refusal 2, buffer 0; nothing changed");
    row("mult_transb, short destination", "2 by 1 by 1, [1; 2] times [3], destination [0]", "left right destination",
        vec![vec![1.0, 2.0], vec![3.0], vec![0.0]],
        |b| { let [x, y, z] = b else { return none() }; Lent::<2, 1>(x).mult_transb(&Lent::<1, 1>(y), &mut Lent::<2, 1>(z)); none() },
        "refusal 2, buffer 2; nothing changed");
    row("multadd_transb, short destination", "2 by 1 by 1, [1; 2] times [3], destination [1]", "left right destination",
        vec![vec![1.0, 2.0], vec![3.0], vec![1.0]],
        |b| { let [x, y, z] = b else { return none() }; Lent::<2, 1>(x).multadd_transb(&Lent::<1, 1>(y), &mut Lent::<2, 1>(z)); none() },
        "refusal 2, buffer 2; nothing changed");
    row("mult_rowvector, short destination", "2 by 1, [1; 2] times [3], destination [0]", "left right destination",
        vec![vec![1.0, 2.0], vec![3.0], vec![0.0]],
        |b| { let [x, y, z] = b else { return none() }; Lent::<2, 1>(x).mult_rowvector(&Lent::<1, 1>(y), &mut Lent::<2, 1>(z)); none() },
        "refusal 2, buffer 2; nothing changed");
    row("sub_inplace_a, short right", "2 by 1, [1; 2] less [3]", "left right",
        vec![vec![1.0, 2.0], vec![3.0]],
        |b| { let [x, y] = b else { return none() }; Lent::<2, 1>(x).sub_inplace_a(&Lent::<2, 1>(y)); none() },
        "refusal 2, buffer 1; nothing changed");
    row("cholesky_decompose_lower, short", "n = 2, buffer [4 2 2]", "matrix", vec![vec![4.0, 2.0, 2.0]],
        |b| verdict(Lent::<2, 2>(&mut b[0]).cholesky_decompose_lower()),
        "refusal 2, buffer 0; nothing changed");
    row("cholesky_decompose_lower, short and refused before the end", "n = 2, buffer [−5 2 2]", "matrix", vec![vec![-5.0, 2.0, 2.0]],
        |b| verdict(Lent::<2, 2>(&mut b[0]).cholesky_decompose_lower()),
        "refusal 2, buffer 0; nothing changed");
    row("invert_l_cholesky, short inverse", "n = 2, L = [2 0; 1 2], inverse [7 7 7]", "L inverse",
        vec![vec![2.0, 0.0, 1.0, 2.0], vec![7.0; 3]],
        |b| { let [l, i] = b else { return none() }; Lent::<2, 2>(l).invert_l_cholesky(&mut Lent::<2, 2>(i)); none() },
        "refusal 2, buffer 1; nothing changed");
    let six = |short: usize| {
        let mut b: Vec<Vec<f32>> = [3.0, 2.0, 1.0, 1.0, 7.0, 7.0].iter().map(|v| vec![*v]).collect();
        b[short].clear();
        b
    };
    row("predict, short P", "n = 1, x = 3, A = 2, P empty, Q = 1, predicted_x = temp_P = 7", "x A P Q predicted_x temp_P", six(2),
        |b| { predict::<1>(b); none() },
        "refusal 2, buffer 2; nothing changed");
    row("predict, short Q", "n = 1, x = 3, A = 2, P = 1, Q empty, predicted_x = temp_P = 7", "x A P Q predicted_x temp_P", six(3),
        |b| { predict::<1>(b); none() },
        "refusal 2, buffer 3; nothing changed");
    row("correct, short S", "x = 1, P = 3, H = R = 1, z = 5, S empty; the rest 7", TWELVE, one(1.0, 3.0, 5.0, 1.0, Some(6)),
        |b| { correct::<1, 1>(b, |_| {}); none() },
        "refusal 2, buffer 6; nothing changed");
    row("correct, short temp_KHP", "x = 1, P = 3, H = R = 1, z = 5, temp_KHP empty; the rest 7", TWELVE, one(1.0, 3.0, 5.0, 1.0, Some(11)),
        |b| { correct::<1, 1>(b, |_| {}); none() },
        "refusal 2, buffer 11; nothing changed");

    head("Auxiliary of mult_buffered");
    let four = |aux: Vec<f32>| vec![vec![2.0], vec![3.0], vec![0.0], aux];
    let names = "left right destination auxiliary";
    row("mult_buffered, longer auxiliary", "1 by 1 by 1, [2] times [3], auxiliary [0 5]", names, four(vec![0.0, 5.0]),
        |b| { let [x, y, z, aux] = b else { return none() }; Lent::<1, 1>(x).mult_buffered(&Lent::<1, 1>(y), &mut Lent::<1, 1>(z), aux); none() },
        "destination [40c00000], auxiliary [40400000 40a00000]");
    row("mult_buffered, short auxiliary", "1 by 1 by 1, [2] times [3], auxiliary empty", names, four(vec![]),
        |b| { let [x, y, z, aux] = b else { return none() }; Lent::<1, 1>(x).mult_buffered(&Lent::<1, 1>(y), &mut Lent::<1, 1>(z), aux); none() },
        "refusal 2, buffer 3; nothing changed");

    head("Sizes 0 and 17");
    row("set_all, size 0", "0 by 1, buffer [1], value 9", "matrix", vec![vec![1.0]],
        |b| { Lent::<0, 1>(&mut b[0]).set_all(9.0); none() },
        "refusal 1, the first size; nothing changed");
    row("get, size 0", "0 by 1, buffer [1], row 0, column 0", "matrix", vec![vec![1.0]],
        |b| word(Lent::<0, 1>(&mut b[0]).get(0, 0)),
        "refusal 1, the first size");
    row("get_column_copy, size 0", "0 by 1, buffer [1], column 0; destination [0]", "matrix destination",
        vec![vec![1.0], vec![0.0]],
        |b| { let (a, d) = b.split_at_mut(1); Lent::<0, 1>(&mut a[0]).get_column_copy(0, &mut d[0]); none() },
        "refusal 1, the first size; nothing changed");
    row("get_row_copy, size 0", "1 by 0, buffer [1], row 0; destination [0]", "matrix destination",
        vec![vec![1.0], vec![0.0]],
        |b| { let (a, d) = b.split_at_mut(1); Lent::<1, 0>(&mut a[0]).get_row_copy(0, &mut d[0]); none() },
        "refusal 1, the second size; nothing changed");
    row("copy_to, size 0", "0 by 1, [1] to [0]", "source target",
        vec![vec![1.0], vec![0.0]],
        |b| { let (a, d) = b.split_at_mut(1); Lent::<0, 1>(&mut a[0]).copy_to(&mut Lent::<0, 1>(&mut d[0])); none() },
        "refusal 1, the first size; nothing changed");
    row("mult, inner size 0", "1 by 0 by 1, empty times empty, destination [7]", "left right destination",
        vec![vec![], vec![], vec![7.0]],
        |b| { let [x, y, z] = b else { return none() }; Lent::<1, 0>(x).mult(&Lent::<0, 1>(y), &mut Lent::<1, 1>(z)); none() },
        "refusal 1, the second size; nothing changed");
    row("mult_rowvector, size 0", "1 by 0, left [2], right [3], destination [7]", "left right destination",
        vec![vec![2.0], vec![3.0], vec![7.0]],
        |b| { let [x, y, z] = b else { return none() }; Lent::<1, 0>(x).mult_rowvector(&Lent::<0, 1>(y), &mut Lent::<1, 1>(z)); none() },
        "refusal 1, the second size; nothing changed");
    row("cholesky_decompose_lower, size 0", "n = 0, buffer empty", "matrix", vec![vec![]],
        |b| verdict(Lent::<0, 0>(&mut b[0]).cholesky_decompose_lower()),
        "refusal 1, the first size");
    row("invert_l_cholesky, size 0", "n = 0, both empty", "L inverse", vec![vec![], vec![]],
        |b| { let [l, i] = b else { return none() }; Lent::<0, 0>(l).invert_l_cholesky(&mut Lent::<0, 0>(i)); none() },
        "refusal 1, the first size");
    row("predict, size 0", "n = 0, each buffer of one number: x = 3, A = 2, P = Q = 1, predicted_x = temp_P = 7", "x A P Q predicted_x temp_P",
        [3.0, 2.0, 1.0, 1.0, 7.0, 7.0].iter().map(|v| vec![*v]).collect(),
        |b| { predict::<0>(b); none() },
        "refusal 1, the first size; nothing changed");
    row("add_inplace_a, size 17", "17 by 1, seventeen 1s plus seventeen 1s", "left right",
        vec![vec![1.0; 17], vec![1.0; 17]],
        |b| { let [x, y] = b else { return none() }; Lent::<17, 1>(x).add_inplace_a(&Lent::<17, 1>(y)); none() },
        "refusal 1, the first size; nothing changed");

    head("New x and P that are not finite");
    row("correct, z = NaN", "x = 1, P = 3, H = R = 1, z = NaN; the rest 7", TWELVE, one(1.0, 3.0, NAN, 1.0, None),
        |b| { correct::<1, 1>(b, |_| {}); none() },
        "refusal 9; x and P as lent, all else the same");
    row("correct twice, z = NaN and then 5", "the same, and then z = 5", TWELVE, one(1.0, 3.0, NAN, 1.0, None),
        |b| { correct::<1, 1>(b, |_| {}); b[3][0] = 5.0; correct::<1, 1>(b, |_| {}); none() },
        "refusal 9, then done: x [40800000], P [3f400000]");
    row("correct, z = ∞", "x = 1, P = 3, H = R = 1, z = ∞; the rest 7", TWELVE, one(1.0, 3.0, f32::INFINITY, 1.0, None),
        |b| { correct::<1, 1>(b, |_| {}); none() },
        "refusal 9; x and P as lent, all else the same");
    row("update from a given y, y = NaN", "x = 1, P = 3, H = R = 1, y = NaN by the closure; the rest 7", TWELVE, one(1.0, 3.0, 0.0, 1.0, None),
        |b| { correct::<1, 1>(b, |y| y[0] = NAN); none() },
        "refusal 9; x and P as lent, all else the same");
    row("correct, x = ∞", "x = ∞, P = 3, H = R = 1, z = 5; the rest 7", TWELVE, one(f32::INFINITY, 3.0, 5.0, 1.0, None),
        |b| { correct::<1, 1>(b, |_| {}); none() },
        "refusal 9; x and P as lent, all else the same");
    let seen = |mut b: Vec<Vec<f32>>, h: f32| { b[2][0] = h; b };
    row("correct, x overflows and P does not", "x = z = 3.4028235e38 (7f7fffff), P = 4, H = 0.5, R = 1; the rest 7", TWELVE,
        seen(one(f32::MAX, 4.0, f32::MAX, 1.0, None), 0.5),
        |b| { correct::<1, 1>(b, |_| {}); none() },
        "refusal 9; x and P as lent, all else the same");
    row("correct, P overflows and x does not", "x = 1, P = −3.4028235e38 (ff7fffff), H = 2^−64, z = 5, R = 2; the rest 7", TWELVE,
        seen(one(1.0, -f32::MAX, 5.0, 2.0, None), 2f32.powi(-64)),
        |b| { correct::<1, 1>(b, |_| {}); none() },
        "refusal 9; x and P as lent, all else the same");
    row("correct, an infinite gain from a finite S", "x = 1, P = R = 2^−140 (00000200), H = 1, z = 5; the rest 7", TWELVE,
        one(1.0, f32::from_bits(0x200), 5.0, f32::from_bits(0x200), None),
        |b| { correct::<1, 1>(b, |_| {}); none() },
        "refusal 9; x and P as lent, all else the same");

    head("Not a difference, noted because the words may mislead");
    let mut past = one(1.0, 3.0, 5.0, 1.0, None);
    past[0].push(NAN);
    past[1].push(f32::INFINITY);
    row("correct, NaN past x and ∞ past P", "x = [1] and a tail [NaN], P = [3] and a tail [∞], H = R = 1, z = 5; the rest 7", TWELVE, past,
        |b| { correct::<1, 1>(b, |_| {}); none() },
        "the same: what lies past n and n·n is not tested");
}

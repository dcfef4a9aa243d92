//! docs/RULES.md in plain f32 loops at run-time sizes: the refusals, and every function step by step.
//! It gives the answers where the rules differ from the original on purpose, and everywhere else
//! it is held against the original, bit for bit.

use crate::calls::{Answer, Call, Function, Places};
use crate::faults::{planted, Fault};

/// Refusals 1 to 3: number and what it carries. Which size, which buffer, and row (0) before column (1)
/// are counted from 0 in the order of R5.
pub fn gate(call: &Call) -> Option<(u32, u32)> {
    let f = call.function;
    for (at, size) in call.sizes.iter().enumerate() {
        if *size == 0 || *size > 16 {
            return Some((1, at as u32));
        }
    }
    for (at, need) in f.needs(&call.sizes).into_iter().enumerate() {
        if call.lent[at].len() < need {
            return Some((2, at as u32));
        }
    }
    let (row, column) = place(call);
    let rows = call.sizes.first().copied().unwrap_or(0);
    let columns = call.sizes.get(1).copied().unwrap_or(rows);
    if row.is_some_and(|row| row >= rows) {
        return Some((3, 0));
    }
    if column.is_some_and(|column| column >= columns) {
        return Some((3, 1));
    }
    None
}

/// The row and the column that the call asks for.
pub fn place(call: &Call) -> (Option<usize>, Option<usize>) {
    match call.function.places() {
        Places::Neither => (None, None),
        Places::Row => (Some(call.places[0]), None),
        Places::Column => (None, Some(call.places[0])),
        Places::Both => (Some(call.places[0]), Some(call.places[1])),
    }
}

/// The square root from bits.
pub fn square_root(v: f32) -> f32 {
    let bits = v.to_bits();
    let field = bits >> 23 & 255;
    let fraction = bits & 0x7f_ffff;
    if bits == 0 || bits == 0x8000_0000 || bits == 0x7f80_0000 {
        return v;
    }
    if bits >> 31 == 1 || field == 255 {
        return f32::NAN;
    }
    // v = whole * 2^power with 2^23 <= whole < 2^24
    let (mut whole, mut power) = if field == 0 {
        let up = fraction.leading_zeros() - 8;
        ((fraction << up) as u64, -149 - up as i32)
    } else {
        ((fraction | 0x80_0000) as u64, field as i32 - 150)
    };
    if power % 2 != 0 {
        whole <<= 1;
        power -= 1;
    }
    // whole * 2^26 is from 2^49 to below 2^51: scale so that the root has 25 or 26 bits, then round to 24
    let scaled = whole << 26;
    let mut root = 0u64;
    for bit in (0..26).rev() {
        let tried = root | 1 << bit;
        if tried * tried <= scaled {
            root = tried
        }
    }
    let mut f = power / 2 - 13;
    // root < true root < root + 1, or exact
    let drop = 64 - root.leading_zeros() - 24;
    let half = 1u64 << (drop - 1);
    let low = root & ((1 << drop) - 1);
    let mut s = root >> drop;
    let exact = root * root == scaled;
    if low > half || low == half && (!exact || s & 1 == 1) {
        s += 1
    }
    f += drop as i32;
    if s == 1 << 24 {
        s >>= 1;
        f += 1
    }
    // s * 2^f is a normal number: a root's exponent is far from both ends
    f32::from_bits(((f + 150) as u32) << 23 | s as u32 & 0x7f_ffff)
}

fn recip(v: f32) -> f32 {
    1.0 / v
}

/// sum + a * b, each rounded.
fn plus(sum: f32, (a, b): (f32, f32)) -> f32 {
    if planted(Fault::FusedMultiplyAdd) {
        return a.mul_add(b, sum);
    }
    sum + a * b
}

/// The k-th of count terms in the order in which they are added.
fn turn(count: usize, k: usize) -> usize {
    if planted(Fault::FarEnd) {
        count - 1 - k
    } else {
        k
    }
}

/// Total of a(k) * b(k), from +0, for k upward.
fn total(count: usize, term: impl Fn(usize) -> (f32, f32)) -> f32 {
    let mut sum = 0.0;
    for k in 0..count {
        sum = plus(sum, term(turn(count, k)))
    }
    sum
}

/// The same with the first product as its start.
fn total_from_first(count: usize, term: impl Fn(usize) -> (f32, f32)) -> f32 {
    let (a, b) = term(turn(count, 0));
    let mut sum = a * b;
    for k in 1..count {
        sum = plus(sum, term(turn(count, k)))
    }
    sum
}

fn mult(rows: usize, inner: usize, columns: usize, a: &[f32], b: &[f32], c: &mut [f32]) {
    for i in 0..rows {
        for j in 0..columns {
            c[i * columns + j] = total(inner, |k| (a[i * inner + k], b[k * columns + j]))
        }
    }
}

/// c(i, j) = put(c(i, j), total of row i of a and row j of b)
fn transb(
    (rows, inner, columns): (usize, usize, usize),
    a: &[f32],
    b: &[f32],
    c: &mut [f32],
    put: impl Fn(f32, f32) -> f32,
) {
    for i in 0..rows {
        for j in 0..columns {
            let sum = total(inner, |k| (a[i * inner + k], b[j * inner + k]));
            c[i * columns + j] = put(c[i * columns + j], sum)
        }
    }
}

fn rowvector(
    (rows, inner): (usize, usize),
    a: &[f32],
    x: &[f32],
    c: &mut [f32],
    put: impl Fn(f32, f32) -> f32,
) {
    for i in 0..rows {
        let term = |k: usize| (a[i * inner + k], x[k]);
        let sum = if planted(Fault::RowVectorStart) {
            total(inner, term)
        } else {
            total_from_first(inner, term)
        };
        c[i] = put(c[i], sum)
    }
}

/// What refuses a call past refusals 1 to 3.
#[derive(Clone, Copy)]
pub enum Stop {
    /// 4: the pivot's index and the pivot.
    Pivot(usize, f32),
    /// 9: an entry of the new x or P is not finite.
    NotFinite,
}

/// Whether a pivot is taken: above zero and finite.
fn taken(pivot: f32) -> bool {
    pivot > 0.0 && (pivot < f32::INFINITY || planted(Fault::TakesInfinity))
}

pub fn decompose(n: usize, t: &mut [f32]) -> Result<(), Stop> {
    let mut d = 0.0;
    for i in 0..n {
        for j in i..n {
            let mut sum = t[i * n + j];
            for k in 0..i {
                let k = turn(i, k);
                sum = plus(sum, (-t[i * n + k], t[j * n + k]))
            }
            t[j * n + i] = sum * d;
            if i == j {
                if !taken(sum) {
                    return Err(Stop::Pivot(i, sum));
                }
                let root = square_root(sum);
                t[i * n + i] = root;
                d = recip(root)
            }
        }
    }
    for i in 0..n {
        for j in i + 1..n {
            t[i * n + j] = 0.0
        }
    }
    Ok(())
}

/// s with the inner sum of the inverse added; an empty one changes nothing.
fn with_inner(s: f32, count: usize, term: impl Fn(usize) -> (f32, f32)) -> f32 {
    if planted(Fault::ZeroStart) {
        s + total(count, term)
    } else if count == 0 {
        s
    } else {
        s + total_from_first(count, term)
    }
}

fn invert(n: usize, l: &[f32], inv: &mut [f32]) {
    for i in 0..n {
        let d = recip(l[i * n + i]);
        for j in 0..=i {
            let start = if i == j { 1.0 } else { 0.0 };
            let term = |k: usize| (-l[i * n + j + k], inv[j * n + j + k]);
            inv[j * n + i] = with_inner(start, i - j, term) * d
        }
    }
    for i in (0..n).rev() {
        let d = recip(l[i * n + i]);
        let from = i + 1;
        for j in 0..=i {
            let term = |k: usize| (-l[(from + k) * n + i], inv[j * n + from + k]);
            let sum = with_inner(inv[j * n + i], n - from, term);
            inv[i * n + j] = sum * d;
            inv[j * n + i] = sum * d
        }
    }
}

fn predict_x(n: usize, x: &mut [f32], a: &[f32], predicted: &mut [f32]) {
    rowvector((n, n), a, x, predicted, |_, sum| sum);
    x[..n].copy_from_slice(&predicted[..n])
}

fn predict_p(n: usize, a: &[f32], p: &mut [f32], q: &[f32], temp: &mut [f32]) {
    mult(n, n, n, a, p, temp);
    transb((n, n, n), temp, a, p, |_, sum| sum);
    for i in 0..n * n {
        p[i] += q[i]
    }
}

fn innovation(n: usize, m: usize, x: &[f32], h: &[f32], z: &[f32], y: &mut [f32]) {
    rowvector((m, n), h, x, y, |_, sum| sum);
    for i in 0..m {
        y[i] = z[i] - y[i]
    }
}

/// Buffers: x, P, H, R, y, S, K, temp_S_inv, temp_HP, temp_PHt, temp_KHP.
/// x and P change last and together, or not at all.
fn update(n: usize, m: usize, lent: &mut [Vec<f32>]) -> Result<(), Stop> {
    let [x, p, h, r, y, s, k, s_inv, hp, pht, khp] = lent else {
        panic!("eleven buffers")
    };
    mult(m, n, n, h, p, hp);
    transb((m, n, m), hp, h, s, |_, sum| sum);
    for i in 0..m * m {
        s[i] += r[i]
    }
    let spread = s[0];
    decompose(m, s)?;
    invert(m, s, s_inv);
    if m == 1 && planted(Fault::OneReciprocal) {
        s_inv[0] = recip(spread)
    }
    transb((n, n, m), p, h, pht, |_, sum| sum);
    mult(n, m, m, pht, s_inv, k);
    let mut new_x = x[..n].to_vec();
    rowvector((n, m), k, y, &mut new_x, |c, sum| c + sum);
    mult(n, m, n, k, hp, khp);
    let new_p: Vec<f32> = (0..n * n).map(|i| p[i] - khp[i]).collect();
    if planted(Fault::XBeforeTest) {
        x[..n].copy_from_slice(&new_x)
    }
    let finite = |b: &[f32]| b.iter().all(|v| v.is_finite());
    if !finite(&new_x) && !planted(Fault::POnly) || !finite(&new_p) && !planted(Fault::XOnly) {
        return Err(Stop::NotFinite);
    }
    x[..n].copy_from_slice(&new_x);
    p[..n * n].copy_from_slice(&new_p);
    Ok(())
}

/// The record x, p, a, q, h, r of one yarn as buffers for one state. Its count stays.
fn one_state_predict(yarn: &mut [f32]) {
    let [x, p, a, q, _, _, _] = yarn else {
        panic!("six numbers and a count")
    };
    let (mut xs, mut ps) = ([*x], [*p]);
    predict_x(1, &mut xs, &[*a], &mut [0.0]);
    predict_p(1, &[*a], &mut ps, &[*q], &mut [0.0]);
    (*x, *p) = (xs[0], ps[0])
}

/// How many corrections were refused in a row after one more, from how many before it: 0 where it is
/// accepted, else one up as far as 255.
fn blind_after(blind: u32, accepted: bool) -> u32 {
    match (accepted, blind) {
        (true, _) if planted(Fault::BlindKept) => blind,
        (true, _) => 0,
        (false, 255) if planted(Fault::BlindWraps) => 0,
        (false, 255) => 255,
        (false, _) => blind + 1,
    }
}

/// The record after the reading z, by the general filter's steps for one state and one observation.
fn one_state_correct(yarn: &mut [f32], z: f32) -> Result<(), Stop> {
    let [x, p, _, _, h, r, blind] = yarn else {
        panic!("six numbers and a count")
    };
    let mut y = [0.0];
    innovation(1, 1, &[*x], &[*h], &[z], &mut y);
    let mut lent: Vec<Vec<f32>> = [*x, *p, *h, *r, y[0]].map(|v| vec![v]).into();
    lent.extend(vec![vec![0.0]; 6]);
    let done = update(1, 1, &mut lent);
    (*x, *p) = (lent[0][0], lent[1][0]);
    *blind = f32::from_bits(blind_after(blind.to_bits(), done.is_ok()));
    done
}

/// The answer of the rules, and the refused pivot if there is one.
pub fn answer(call: &Call) -> (Answer, Option<f32>) {
    use Function::*;
    let mut lent = call.lent.clone();
    if let Some((number, carried)) = gate(call) {
        return (
            Answer {
                number,
                carried,
                value: 0.0,
                lent,
            },
            None,
        );
    }
    let s = &call.sizes;
    let v = &call.scalars;
    let mut value = 0.0;
    let mut done = Ok(());
    let (row, column) = place(call);
    let (row, column) = (row.unwrap_or(0), column.unwrap_or(0));
    match (call.function, lent.as_mut_slice()) {
        (Get, [a]) => value = a[row * s[1] + column],
        (Set, [a]) => a[row * s[1] + column] = v[0],
        (SetSymmetric, [a]) => {
            a[row * s[0] + column] = v[0];
            a[column * s[0] + row] = v[0]
        }
        (GetRowCopy, [a, to]) => to[..s[1]].copy_from_slice(&a[row * s[1]..(row + 1) * s[1]]),
        (GetColumnCopy, [a, to]) => {
            for i in 0..s[0] {
                to[i] = a[i * s[1] + column]
            }
        }
        (CopyTo, [a, to]) => to[..s[0] * s[1]].copy_from_slice(&a[..s[0] * s[1]]),
        (SetAll, [a]) => a[..s[0] * s[1]].fill(v[0]),
        (Clear | SetZero, [a]) => a[..s[0] * s[1]].fill(0.0),
        (SetDiagonalToScalar, [a]) => {
            for i in 0..s[0] {
                a[i * s[0] + i] = v[0]
            }
        }
        (MakeScalar | MakeIdentity | MakeComatrix, [a]) => {
            let diagonal = v.first().copied().unwrap_or(1.0);
            let rest = v.get(1).copied().unwrap_or(0.0);
            for i in 0..s[0] {
                for j in 0..s[0] {
                    a[i * s[0] + j] = if i == j { diagonal } else { rest }
                }
            }
        }
        (Mult, [a, b, c]) => mult(s[0], s[1], s[2], a, b, c),
        (MultBuffered, [a, b, c, aux]) => {
            mult(s[0], s[1], s[2], a, b, c);
            for k in 0..s[1] {
                aux[k] = b[k * s[2]]
            }
        }
        (MultTransb, [a, b, c]) => transb((s[0], s[1], s[2]), a, b, c, |_, sum| sum),
        (MultaddTransb, [a, b, c]) => transb((s[0], s[1], s[2]), a, b, c, |c, sum| c + sum),
        (MultscaleTransb, [a, b, c]) => transb((s[0], s[1], s[2]), a, b, c, |_, sum| sum * v[0]),
        (MultRowvector, [a, x, c]) => rowvector((s[0], s[1]), a, x, c, |_, sum| sum),
        (MultaddRowvector, [a, x, c]) => rowvector((s[0], s[1]), a, x, c, |c, sum| c + sum),
        (Sub, [a, b, c]) => {
            for i in 0..s[0] * s[1] {
                c[i] = a[i] - b[i]
            }
        }
        (SubInplaceA, [a, b]) => {
            for i in 0..s[0] * s[1] {
                a[i] -= b[i]
            }
        }
        (SubInplaceB, [a, b]) => {
            for i in 0..s[0] * s[1] {
                b[i] = a[i] - b[i]
            }
        }
        (AddInplaceA, [a, b]) => {
            for i in 0..s[0] * s[1] {
                a[i] += b[i]
            }
        }
        (AddInplaceB, [a, b]) => {
            for i in 0..s[0] * s[1] {
                b[i] = a[i] + b[i]
            }
        }
        (Recip, _) => value = recip(v[0]),
        (SquareRoot, _) => value = square_root(v[0]),
        (CholeskyDecomposeLower, [t]) => done = decompose(s[0], t),
        (InvertLCholesky, [l, inv]) => invert(s[0], l, inv),
        (Predict, [x, a, p, q, predicted, temp]) => {
            predict_x(s[0], x, a, predicted);
            predict_p(s[0], a, p, q, temp)
        }
        (PredictX, [x, a, predicted]) => predict_x(s[0], x, a, predicted),
        (PredictP, [a, p, q, temp]) => predict_p(s[0], a, p, q, temp),
        (Correct, _) => {
            let z = lent.remove(3);
            if let [x, _, h, _, y, ..] = lent.as_mut_slice() {
                innovation(s[0], s[1], x, h, &z, y)
            }
            done = update(s[0], s[1], &mut lent);
            lent.insert(3, z)
        }
        (Innovation, [x, h, z, y]) => innovation(s[0], s[1], x, h, z, y),
        (UpdateWithInnovation, _) => done = update(s[0], s[1], &mut lent),
        (OneStatePredict, [yarn]) => one_state_predict(yarn),
        (OneStateCorrect, [yarn]) => done = one_state_correct(yarn, v[0]),
        _ => panic!("{}: a wrong number of buffers", call.function.name()),
    }
    let (number, carried, pivot) = match done {
        Ok(()) => (0, 0, None),
        Err(Stop::Pivot(at, pivot)) => (4, at as u32, Some(pivot)),
        Err(Stop::NotFinite) => (9, 0, None),
    };
    (
        Answer {
            number,
            carried,
            value,
            lent,
        },
        pivot,
    )
}

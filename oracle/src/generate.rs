//! Which calls a list holds. A line depends on the seed, its function and how many lines of that
//! function came before it, so that a list of fewer functions holds the same lines of those.

use crate::calls::{Call, Function, Places, ALL, BLIND};
use crate::inputs::{
    mark, nan, not_finite, number, numbers, shape, symmetric, Kind, Random, Shape, KINDS,
};
use crate::model;

/// No buffer in a list has more numbers.
pub const LONGEST: usize = 300;

/// The ends of a record's count, where a wrong one shows.
pub const ENDS: [u32; 3] = [0, 254, 255];

/// How sizes are spread.
#[derive(Clone, Copy, PartialEq, Eq)]
pub enum Plan {
    /// Every combination of sizes in turn: 16, 256 or 4,096 accepted lines of a function see them all.
    Even,
    /// Few large sizes, for a short list: see `small`.
    Small,
}

/// How many lines of a function stand in one round of a list.
pub fn weight(plan: Plan, f: Function) -> usize {
    use Function::*;
    match (plan, f) {
        (Plan::Even, SquareRoot) => 4,
        (Plan::Even, Get | Set | SetSymmetric | GetRowCopy | GetColumnCopy) => 2,
        (Plan::Even, Mult | MultBuffered | MultTransb | MultaddTransb | MultscaleTransb) => 3,
        (Plan::Even, CholeskyDecomposeLower | Correct) => 5,
        (Plan::Even, UpdateWithInnovation | Predict) => 3,
        (Plan::Even, InvertLCholesky | OneStateCorrect) => 2,
        (Plan::Even, _) => 1,
        (Plan::Small, Recip) => 4,
        (Plan::Small, SquareRoot) => 9,
        (Plan::Small, CholeskyDecomposeLower) => 5,
        (Plan::Small, Correct) => 3,
        (Plan::Small, Mult | MultBuffered | MultTransb | MultaddTransb | MultscaleTransb) => 2,
        (Plan::Small, UpdateWithInnovation | OneStateCorrect) => 2,
        (Plan::Small, _) => 1,
    }
}

/// The functions of one round, spread out.
fn round(plan: Plan, functions: &[Function]) -> Vec<Function> {
    let most = functions
        .iter()
        .map(|f| weight(plan, *f))
        .max()
        .unwrap_or(0);
    let mut out = vec![];
    for pass in 0..most {
        out.extend(functions.iter().filter(|f| weight(plan, **f) > pass))
    }
    out
}

pub struct Calls {
    plan: Plan,
    seed: u64,
    round: Vec<Function>,
    at: usize,
    counts: Vec<u64>,
}

impl Calls {
    pub fn new(plan: Plan, seed: u64, functions: &[Function]) -> Calls {
        let round = round(plan, functions);
        Calls {
            plan,
            seed,
            round,
            at: 0,
            counts: vec![0; ALL.len()],
        }
    }
}

impl Iterator for Calls {
    type Item = Call;

    fn next(&mut self) -> Option<Call> {
        let f = self.round[self.at % self.round.len()];
        self.at += 1;
        let count = self.counts[f as usize];
        self.counts[f as usize] += 1;
        Some(call(self.plan, self.seed, f, count))
    }
}

/// One line in so many of a function is refused before any work.
fn refused_every(f: Function) -> u64 {
    if f.place_count() > 0 {
        4
    } else {
        7
    }
}

/// One line in so many of a correction, an update and a record's correction has what is `wanted`, those
/// refused before any work not counted.
const ASKED_EVERY: u64 = 10;

fn call(plan: Plan, seed: u64, f: Function, count: u64) -> Call {
    use Function::*;
    let r = &mut Random::new(seed, f as u64, count);
    let every = refused_every(f);
    if f.sizes() > 0 && count % every == every - 1 {
        let draw = if plan == Plan::Small { few } else { skewed };
        let sizes: Vec<_> = (0..f.sizes()).map(|_| draw(r)).collect();
        let mut call = accepted(r, f, sizes, None);
        spoil(r, &mut call);
        return call;
    }
    let mut turn = count;
    if f.sizes() > 0 {
        turn -= count / every
    }
    if plan == Plan::Even && matches!(f, Correct | UpdateWithInnovation | OneStateCorrect) {
        if turn % ASKED_EVERY == ASKED_EVERY - 1 {
            let turn = (turn / ASKED_EVERY).wrapping_add(seed.wrapping_mul(90));
            if f == OneStateCorrect {
                let all = of_records();
                let (asked, blind) = all[turn as usize % all.len()];
                return counted(accepted(r, f, vec![], Some(asked)), blind);
            }
            let (sizes, asked) = asked_in_turn(turn);
            return accepted(r, f, sizes, Some(asked));
        }
        turn -= turn / ASKED_EVERY
    }
    let sizes = match plan {
        Plan::Even => even(seed, f, turn),
        Plan::Small => small(r, f, turn as usize),
    };
    let infinite = match (plan, f) {
        (Plan::Even, CholeskyDecomposeLower) => infinite_at(turn, sizes[0]),
        _ => None,
    };
    accepted(r, f, sizes, infinite)
}

/// What a line is to have, where that is not left to chance.
#[derive(Clone, Copy)]
enum Asked {
    /// +infinity on the diagonal, at this index, of the matrix to decompose or of R.
    Pivot(usize),
    /// This r of a record; all else is ordinary.
    Noise(f32),
    /// This reading at this index; of an update, in y.
    Reading(usize, f32),
    /// Finite numbers from which the new x overflows, at this index alone.
    NewX(usize),
    /// Finite numbers from which the new P overflows, at this row and column alone.
    NewP(usize, usize),
    /// Finite numbers and a finite S, whose inverse is not, and so not the gain.
    Inverse,
    /// Finite numbers and a finite inverse, and a gain that overflows in this row alone: n is above 1.
    GainRow(usize),
    /// An x, or a P, that is not finite as lent, at this place.
    LentX(usize),
    LentP(usize, usize),
    /// NaN and infinities past x and past P, and nowhere else.
    Tails,
}

/// What a correction or an update of m readings is asked for.
fn of_readings(m: usize) -> Vec<Asked> {
    let bad = [f32::NAN, f32::INFINITY, f32::NEG_INFINITY];
    (0..m)
        .flat_map(|i| bad.map(|v| Asked::Reading(i, v)))
        .collect()
}

/// And of n states.
fn of_states(n: usize) -> Vec<Asked> {
    let mut out = vec![];
    for j in 0..n {
        out.push(Asked::NewX(j));
        // the last cell; else one of the first row or of the diagonal
        let row = if j % 2 == 1 && j < n - 1 { 0 } else { j };
        out.push(Asked::NewP(row, j))
    }
    if n > 1 {
        out.push(Asked::GainRow(0))
    }
    out.extend([
        Asked::Inverse,
        Asked::LentX(n - 1),
        Asked::LentP(0, n - 1),
        Asked::Tails,
    ]);
    out
}

/// And of both.
fn wanted(n: usize, m: usize) -> Vec<Asked> {
    let mut out = of_readings(m);
    out.extend(of_states(n));
    out
}

/// What a record's correction is asked for, and its count before: twelve things, each from each of `ENDS`.
fn of_records() -> Vec<(Asked, u32)> {
    let mut all = wanted(1, 1);
    // a record has nothing past its count
    all.retain(|asked| !matches!(asked, Asked::Tails));
    // a pivot of each kind that is refused, and one that is taken
    all.extend([f32::INFINITY, f32::NAN, f32::MIN, 1.0].map(Asked::Noise));
    ENDS.iter()
        .flat_map(|blind| all.iter().map(|asked| (*asked, *blind)))
        .collect()
}

/// The call with this count in its record.
fn counted(mut call: Call, blind: u32) -> Call {
    call.lent[0][BLIND] = f32::from_bits(blind);
    call
}

/// Sizes, and what is asked for, of the turn-th such line. All that is wanted, of each n and each m, is there
/// once in 759 of them, and in the next 759 beside another m or n. The next seed begins 90 further on: nine
/// lists of 25,000 lines, of seeds that follow each other, have it all.
fn asked_in_turn(turn: u64) -> (Vec<usize>, Asked) {
    let other = 1 + turn as usize % 16;
    let mut all = vec![];
    for k in 1..=16 {
        all.extend(of_readings(k).into_iter().map(|asked| ([other, k], asked)));
        all.extend(of_states(k).into_iter().map(|asked| ([k, other], asked)))
    }
    let count = all.len() as u64;
    let (sizes, asked) = all[(turn % count * 317 % count) as usize];
    (sizes.to_vec(), asked)
}

/// Where a decomposition of a list has +infinity on its diagonal: in every sixth round of the sizes, at the
/// next index each time. 96 rounds, 1,536 accepted lines, have it at each index of each size.
fn infinite_at(turn: u64, n: usize) -> Option<Asked> {
    let round = turn / 16;
    (round % 6 == 5).then(|| Asked::Pivot((round / 6) as usize % n))
}

/// For a short list: +infinity on the diagonal at each index, of a matrix to decompose and of R, and as r of
/// records; all that is wanted at some small sizes and of records, and at a larger size the last entries;
/// records' predictions from each count of `ENDS`.
pub fn asked_lines(seed: u64) -> Vec<Call> {
    use Function::*;
    let mut out = vec![];
    let stream = |f: Function, at: usize| Random::new(seed, f as u64, u64::MAX - 1 - at as u64);
    let mut add = |f: Function, sizes: &[usize], asked: Vec<Asked>| {
        for asked in asked {
            let r = &mut stream(f, out.len());
            out.push(accepted(r, f, sizes.to_vec(), Some(asked)))
        }
    };
    let pivots = |count: usize| (0..count).map(Asked::Pivot).collect();
    for n in [1, 2, 3, 4, 5, 6, 9, 16] {
        add(CholeskyDecomposeLower, &[n], pivots(n))
    }
    for f in [Correct, UpdateWithInnovation] {
        for [n, m] in [[1, 1], [2, 1], [2, 2], [4, 2], [3, 3], [6, 3], [9, 2]] {
            add(f, &[n, m], pivots(m))
        }
    }
    add(OneStateCorrect, &[], vec![Asked::Noise(f32::INFINITY); 6]);
    for f in [Correct, UpdateWithInnovation] {
        for [n, m] in [[1, 1], [3, 1], [1, 2], [2, 2], [2, 3]] {
            add(f, &[n, m], wanted(n, m))
        }
        add(f, &[9, 1], vec![Asked::NewX(8), Asked::NewP(8, 8)])
    }
    let corrections = of_records()
        .into_iter()
        .map(|(asked, blind)| (OneStateCorrect, Some(asked), blind));
    let predictions = ENDS.map(|blind| (OneStatePredict, None, blind));
    for (f, asked, blind) in corrections.chain(predictions) {
        let r = &mut stream(f, out.len());
        out.push(counted(accepted(r, f, vec![], asked), blind))
    }
    out
}

/// The turn-th combination of sizes, in an order in which all come before any comes again.
fn even(seed: u64, f: Function, turn: u64) -> Vec<usize> {
    let places = f.sizes() as u32;
    let all = 1u64 << (4 * places);
    let start = Random::new(seed, f as u64, u64::MAX).next();
    let step = [1, 5, 101, 1657][places as usize];
    let at = start.wrapping_add(turn.wrapping_mul(step)) % all;
    (0..places)
        .map(|p| (at >> (4 * p) & 15) as usize + 1)
        .collect()
}

/// 1 to 16, mostly small.
fn skewed(r: &mut Random) -> usize {
    let least = (0..4).map(|_| r.below(16)).min().unwrap_or(0);
    least + 1
}

/// In turn: the sizes of a cover in each place, beside sizes 1 and 2; for some, 16 in every place; then
/// small sizes.
/// A cover holds 1 to 4, 16 and every third size between, so that three neighbouring functions have all;
/// the short ones hold all sizes, and predictions and corrections, which are long lines, fewer.
fn small(r: &mut Random, f: Function, turn: usize) -> Vec<usize> {
    use Function::*;
    let places = f.sizes();
    let long = matches!(f, Predict | PredictP | Correct | UpdateWithInnovation);
    let all = matches!(f, CholeskyDecomposeLower | PredictX | Innovation | Mult);
    let largest = matches!(
        f,
        Get | Set
            | GetRowCopy
            | GetColumnCopy
            | CopyTo
            | SetAll
            | Mult
            | MultRowvector
            | MultaddRowvector
            | Sub
            | AddInplaceA
            | Innovation
            | Correct
    );
    let cover: Vec<usize> = (1..=16)
        .filter(|k| match long {
            true => [1, 2, 3, 4, 6, 9, 16].contains(k),
            false => all || *k < 5 || *k == 16 || (k + f as usize) % 3 == 0,
        })
        .collect();
    let mut sizes: Vec<_> = (0..places).map(|_| 1 + r.below(2)).collect();
    if turn < cover.len() * places {
        sizes[turn % places] = cover[turn / places]
    } else if turn == cover.len() * places && places > 1 && largest {
        sizes.fill(16)
    } else {
        sizes
            .iter_mut()
            .for_each(|s| *s = if long { 1 + skewed(r) / 3 } else { few(r) })
    }
    sizes
}

/// 1 to 9, mostly 1 to 3.
fn few(r: &mut Random) -> usize {
    1 + skewed(r) / 2
}

/// A kind for one buffer.
fn kind(r: &mut Random) -> Kind {
    match r.below(100) {
        0..=20 => Kind::Ordinary,
        21..=29 => Kind::Signs,
        30..=41 => Kind::Bits,
        42..=53 => Kind::Specials,
        54..=63 => Kind::Whole,
        64..=67 => Kind::WholeLarge,
        68..=79 => Kind::Wide,
        80..=85 => Kind::Tiny,
        86..=89 => Kind::Huge,
        _ => Kind::Mixed,
    }
}

fn any(r: &mut Random, count: usize) -> Vec<f32> {
    let kind = kind(r);
    numbers(r, kind, count)
}

/// What lies in a buffer that is only written: marks, +0, or any bits.
fn scratch(r: &mut Random, count: usize) -> Vec<f32> {
    match r.below(4) {
        0 => vec![0.0; count],
        1 => (0..count).map(|_| mark(r)).collect(),
        _ => (0..count)
            .map(|_| f32::from_bits(r.next() as u32))
            .collect(),
    }
}

/// An argument of the square root or the reciprocal.
fn argument(r: &mut Random, f: Function) -> f32 {
    let near = |r: &mut Random, v: f32| {
        f32::from_bits(v.to_bits().wrapping_add(r.below(7) as u32).wrapping_sub(3))
    };
    match r.below(10) {
        0 | 1 => number(r, Kind::Bits),
        2 => number(r, Kind::Specials),
        3 => number(r, Kind::Tiny),
        4 => {
            let kind = r.pick(KINDS);
            number(r, kind)
        }
        5 => {
            // next to a power of two
            let v = f32::from_bits((r.below(254) as u32 + 1) << 23);
            near(r, v)
        }
        6 => {
            // next to a square
            let s = (1 + r.below(4095)) as f32;
            let scale = 4f32.powi(r.below(100) as i32 - 50);
            near(r, s * s * scale)
        }
        7 | 8 => {
            // next to the square of a number halfway between two floats
            let s = ((1u64 << 23) + r.below(1 << 23) as u64) as f64 + 0.5;
            let scale = 4f64.powi(r.below(135) as i32 - 95);
            near(r, (s * s * scale) as f32)
        }
        _ if f == Function::SquareRoot => f32::from_bits(r.next() as u32 & 0x7fff_ffff),
        _ => number(r, Kind::Wide),
    }
}

/// The identity plus a little: a transition as models have it.
fn transition(r: &mut Random, n: usize) -> Vec<f32> {
    let mut a: Vec<f32> = numbers(r, Kind::Ordinary, n * n)
        .iter()
        .map(|v| v * 0.0625)
        .collect();
    let upper = r.one_in(2);
    for i in 0..n {
        for j in 0..i {
            if upper {
                a[i * n + j] = 0.0
            }
        }
        a[i * n + i] += 1.0
    }
    a
}

/// A lower factor, as the decomposition gives it or worse.
fn factor(r: &mut Random, n: usize) -> Vec<f32> {
    let mut l = match r.below(10) {
        0..=4 => {
            let shape = r.pick(&[
                Shape::Good,
                Shape::GoodWhole,
                Shape::Diagonal,
                Shape::Ends,
                Shape::Nearly,
            ]);
            let mut l = symmetric(r, shape, n);
            let _ = model::decompose(n, &mut l);
            l
        }
        5 => {
            // ones of either sign on the diagonal, hardly anything else
            let mut l = numbers(r, Kind::Signs, n * n);
            (0..n).for_each(|i| l[i * n + i] = r.pick(&[1.0, -1.0, 2.0, -0.5]));
            l
        }
        6 => numbers(r, Kind::Whole, n * n),
        7 => {
            let mut l = numbers(r, Kind::Ordinary, n * n);
            let i = r.below(n);
            l[i * n + i] = number(r, Kind::Specials);
            l
        }
        _ => any(r, n * n),
    };
    if r.one_in(3) {
        // the upper triangle is not read
        for i in 0..n {
            for j in i + 1..n {
                l[i * n + j] = f32::from_bits(r.next() as u32)
            }
        }
    }
    l
}

/// x, A, P, Q of a prediction.
fn prediction(r: &mut Random, n: usize) -> [Vec<f32>; 4] {
    match r.below(10) {
        0..=3 => {
            let q = r.pick(&[Shape::Good, Shape::Diagonal]);
            [
                numbers(r, Kind::Ordinary, n),
                transition(r, n),
                symmetric(r, Shape::Good, n),
                symmetric(r, q, n),
            ]
        }
        4 => [
            numbers(r, Kind::Whole, n),
            numbers(r, Kind::Whole, n * n),
            symmetric(r, Shape::GoodWhole, n),
            symmetric(r, Shape::GoodWhole, n),
        ],
        5 => {
            let kind = kind(r);
            [
                numbers(r, kind, n),
                numbers(r, kind, n * n),
                numbers(r, kind, n * n),
                numbers(r, kind, n * n),
            ]
        }
        _ => {
            let (p, q) = (shape(r), shape(r));
            let a = if r.one_in(2) {
                transition(r, n)
            } else {
                any(r, n * n)
            };
            [any(r, n), a, symmetric(r, p, n), symmetric(r, q, n)]
        }
    }
}

/// x, P, H, z, R of a correction.
fn correction(r: &mut Random, n: usize, m: usize) -> [Vec<f32>; 5] {
    let x = if r.one_in(5) {
        any(r, n)
    } else {
        numbers(r, Kind::Ordinary, n)
    };
    let mut z = numbers(r, Kind::Ordinary, m);
    if r.one_in(10) {
        // a bad reading
        let at = r.below(m);
        z[at] = number(r, Kind::Specials)
    }
    let h: Vec<f32> = match r.below(3) {
        // ones that pick states, zeros of either sign
        0 => (0..m * n)
            .map(|_| r.pick(&[0.0, 0.0, -0.0, 1.0, -1.0]))
            .collect(),
        _ => numbers(r, Kind::Ordinary, m * n),
    };
    match r.below(100) {
        0..=29 | 58..=63 => {
            let p = r.pick(&[Shape::Good, Shape::Good, Shape::Diagonal]);
            let noise = r.pick(&[Shape::Good, Shape::Diagonal]);
            [x, symmetric(r, p, n), h, z, symmetric(r, noise, m)]
        }
        30..=39 => [
            numbers(r, Kind::Whole, n),
            symmetric(r, Shape::GoodWhole, n),
            numbers(r, Kind::Whole, m * n),
            numbers(r, Kind::Whole, m),
            symmetric(r, Shape::GoodWhole, m),
        ],
        40..=51 => {
            // S nearly singular: more readings than P has rank, and little or no noise
            let p = symmetric(r, Shape::Nearly, n);
            let noise = r.pick(&[0.0, 1e-9, 1e-8, 1e-7, 1e-6]);
            let mut noises = vec![0.0; m * m];
            for i in 0..m {
                noises[i * m + i] = noise
            }
            [x, p, h, z, noises]
        }
        52..=57 => {
            let p = symmetric(r, Shape::Good, n);
            let mut noise = symmetric(r, Shape::Good, m);
            let at = r.below(m);
            noise[at * m + at] = -r.pick(&[1e6, 1e12, f32::MAX, f32::INFINITY]);
            [x, p, h, z, noise]
        }
        64..=69 => {
            let p = symmetric(r, Shape::Indefinite, n);
            [x, p, h, z, symmetric(r, Shape::Diagonal, m)]
        }
        70..=79 => {
            let p = symmetric(r, Shape::Good, n);
            [x, p, h, z, symmetric(r, Shape::NanPivot, m)]
        }
        80..=85 => {
            let shape = r.pick(&[Shape::Good, Shape::Damaged]);
            [
                x,
                symmetric(r, shape, n),
                h,
                z,
                symmetric(r, Shape::Damaged, m),
            ]
        }
        86..=89 => {
            let p = symmetric(r, Shape::Good, n);
            let noise = r.pick(&[Shape::Infinite, Shape::Ends]);
            [x, p, h, z, symmetric(r, noise, m)]
        }
        90..=93 => {
            let p = symmetric(r, Shape::Good, n);
            let at = r.below(m);
            [x, p, h, z, symmetric(r, Shape::InfiniteAt(at), m)]
        }
        _ => {
            let (p, noise) = (shape(r), shape(r));
            [
                any(r, n),
                symmetric(r, p, n),
                any(r, m * n),
                any(r, m),
                symmetric(r, noise, m),
            ]
        }
    }
}

/// x, P, H, z, R of a correction that has what is asked for; of an update, y in the place of z.
fn asked_correction(r: &mut Random, n: usize, m: usize, asked: Asked) -> [Vec<f32>; 5] {
    let shape = match asked {
        Asked::Inverse => Shape::Low,
        _ => r.pick(&[Shape::Good, Shape::Diagonal]),
    };
    // 1/2 to 1, of either sign
    let unit = |r: &mut Random| {
        let v = 0.5 + number(r, Kind::Ordinary).abs() / 2.0;
        v * r.pick(&[1.0, -1.0])
    };
    let mut x = numbers(r, Kind::Ordinary, n);
    let mut p = symmetric(r, shape, n);
    let mut h: Vec<f32> = (0..m * n).map(|_| unit(r)).collect();
    let mut z = numbers(r, Kind::Ordinary, m);
    let mut noise = symmetric(r, shape, m);
    match asked {
        Asked::Pivot(i) => noise[i * m + i] = f32::INFINITY,
        Asked::Noise(v) => noise[0] = if v.is_nan() { nan(r) } else { v },
        Asked::Reading(i, v) => z[i] = if v.is_nan() { nan(r) } else { v },
        Asked::NewX(j) => {
            // H P H' has g g' from P(j, j) and column j of H, which is g / 2^62. So row j of the gain is some
            // 2^62, no other is large, and the new P(j, j) is below the old.
            for i in 0..m {
                h[i * n + j] = unit(r) / 2f32.powi(62);
                z[i] = unit(r) * 2f32.powi(80)
            }
            p[j * n + j] = 2f32.powi(124)
        }
        Asked::NewP(a, b) => {
            // H P H' has -g g' from P(a, b) and columns a and b of H, which are g / 2^64; R makes up for it.
            // K H P has 2^128 g' (1/S) g at (a, b), to be taken from -2^128. Off the diagonal the signs of
            // column b, of P(a, b) and of K H P can be the other ones.
            let sign = if a == b { 1.0 } else { r.pick(&[1.0, -1.0]) };
            for i in 0..m {
                h[i * n + a] = unit(r) / 2f32.powi(64);
                h[i * n + b] = h[i * n + a] * sign;
                noise[i * m + i] += 2.0 * m as f32
            }
            p[a * n + b] = -f32::MAX * sign
        }
        Asked::GainRow(a) => {
            // Column a of H is zero, so that S is small whatever row a of P holds; P H' has P(a, b) H(i, b).
            p.iter_mut()
                .chain(&mut noise)
                .for_each(|v| *v /= 2f32.powi(24));
            (0..m).for_each(|i| h[i * n + a] = 0.0);
            p[a * n + (a + 1) % n] = 2f32.powi(127)
        }
        Asked::LentX(j) => x[j] = not_finite(r),
        Asked::LentP(a, b) => p[a * n + b] = not_finite(r),
        Asked::Inverse | Asked::Tails => {}
    }
    [x, p, h, z, noise]
}

/// x, p, a, q, h, r of one yarn.
fn yarn(r: &mut Random) -> Vec<f32> {
    let model = |r: &mut Random, kind: Kind| {
        let mut out = numbers(r, kind, 6);
        // p, q and r are spreads
        for at in [1, 3, 5] {
            out[at] = out[at].abs()
        }
        out
    };
    let mut out = match r.below(10) {
        0..=3 => model(r, Kind::Ordinary),
        4 => model(r, Kind::Whole),
        5 => model(r, Kind::Wide),
        6 => {
            let kind = r.pick(&[Kind::Tiny, Kind::Huge]);
            model(r, kind)
        }
        _ => any(r, 6),
    };
    if r.one_in(12) {
        out[5] = f32::INFINITY
    } else if r.one_in(12) {
        let at = r.below(6);
        out[at] = number(r, Kind::Specials)
    }
    out
}

/// A yarn's count of corrections refused in a row: mostly 0, a few, or next to 255.
fn blind(r: &mut Random) -> u32 {
    if r.one_in(8) {
        r.below(256) as u32
    } else {
        r.pick(&[0, 1, 2, 7, 253, 254, 255])
    }
}

/// A call that passes refusals 1 to 3 and has what is asked for.
fn accepted(r: &mut Random, f: Function, sizes: Vec<usize>, asked: Option<Asked>) -> Call {
    use Function::*;
    let needs = f.needs(&sizes);
    let rows = sizes.first().copied().unwrap_or(1);
    let columns = sizes.get(1).copied().unwrap_or(rows);
    let places = match f.places() {
        Places::Neither => vec![],
        Places::Row => vec![r.below(rows)],
        Places::Column => vec![r.below(columns)],
        Places::Both => {
            let row = r.below(rows);
            // now and then the diagonal
            let column = if r.one_in(6) {
                row.min(columns - 1)
            } else {
                r.below(columns)
            };
            vec![row, column]
        }
    };
    let mut scalars = match f {
        Recip | SquareRoot => vec![argument(r, f)],
        _ => (0..f.scalars())
            .map(|_| {
                let kind = kind(r);
                number(r, kind)
            })
            .collect(),
    };
    let mut lent: Vec<Vec<f32>> = match f {
        CholeskyDecomposeLower => {
            let shape = match asked {
                Some(Asked::Pivot(at)) => Shape::InfiniteAt(at),
                _ => shape(r),
            };
            vec![symmetric(r, shape, sizes[0])]
        }
        OneStatePredict | OneStateCorrect => {
            let mut record = match asked {
                None => yarn(r),
                Some(asked) => {
                    let [x, p, h, z, noise] = asked_correction(r, 1, 1, asked).map(|b| b[0]);
                    let [a, q] = [0, 1].map(|_| number(r, Kind::Ordinary));
                    scalars = vec![z];
                    vec![x, p, a, q, h, noise]
                }
            };
            record.push(f32::from_bits(blind(r)));
            vec![record]
        }
        InvertLCholesky => vec![factor(r, sizes[0]), scratch(r, needs[1])],
        Predict | PredictX | PredictP => {
            let [x, a, p, q] = prediction(r, sizes[0]);
            let predicted = scratch(r, sizes[0]);
            let temp = scratch(r, sizes[0] * sizes[0]);
            match f {
                Predict => vec![x, a, p, q, predicted, temp],
                PredictX => vec![x, a, predicted],
                _ => vec![a, p, q, temp],
            }
        }
        Correct | Innovation | UpdateWithInnovation => {
            let (n, m) = (sizes[0], sizes[1]);
            let [x, p, h, z, noise] = match asked {
                None => correction(r, n, m),
                Some(asked) => asked_correction(r, n, m, asked),
            };
            if f == Innovation {
                vec![x, h, z, scratch(r, needs[3])]
            } else {
                let y = match (f, asked) {
                    (Correct, _) => scratch(r, m),
                    (_, None) => any(r, m),
                    (_, Some(_)) => z.clone(),
                };
                let mut all = vec![x, p, h, z, noise, y];
                let rest = Correct.needs(&sizes);
                all.extend(rest[6..].iter().map(|n| scratch(r, *n)));
                if f == UpdateWithInnovation {
                    all.remove(3);
                }
                all
            }
        }
        _ => {
            // half of the lines have one kind throughout
            let one = kind(r);
            let alike = r.one_in(2);
            needs
                .iter()
                .map(|n| {
                    if alike {
                        numbers(r, one, *n)
                    } else {
                        any(r, *n)
                    }
                })
                .collect()
        }
    };
    // a record is six numbers and a count, and nothing behind them
    let bad = matches!(asked, Some(Asked::Tails));
    if !f.record() && (bad || r.one_in(2)) {
        // past x and P nothing is tested, and so now and then nothing there is finite
        let bad = bad || matches!(f, Correct | UpdateWithInnovation) && r.one_in(3);
        for (at, b) in lent.iter_mut().enumerate() {
            if bad && at < 2 {
                (0..1 + r.below(4)).for_each(|_| b.push(not_finite(r)))
            } else {
                (0..r.below(5)).for_each(|_| b.push(mark(r)))
            }
        }
    }
    Call {
        function: f,
        sizes,
        places,
        scalars,
        lent,
    }
}

fn bad_size(r: &mut Random) -> usize {
    r.pick(&[
        0,
        0,
        0,
        17,
        17,
        17,
        18,
        32,
        255,
        256,
        65_535,
        65_536,
        0x1000_0000,
        0x1000_0001,
        0x8000_0000,
        0xffff_fffe,
        usize::MAX,
    ])
}

/// A row or column that is not below `bound`.
fn bad_place(r: &mut Random, bound: usize) -> usize {
    let large = [
        16,
        17,
        255,
        65_536,
        0x1000_0000,
        0x8000_0000,
        0xffff_fffe,
        usize::MAX,
    ];
    match r.below(4) {
        0 | 1 => bound,
        2 => bound + 1 + r.below(3),
        _ => r.pick(&large),
    }
}

/// Fewer numbers than the matrix has: none, one too few, or any.
fn shorten(r: &mut Random, b: &mut Vec<f32>, need: usize) {
    let length = match r.below(5) {
        0 => 0,
        1..=3 => need - 1,
        _ => r.below(need),
    };
    b.truncate(length)
}

fn spoil_place(r: &mut Random, call: &mut Call) {
    let rows = call.sizes[0];
    let columns = call.sizes.get(1).copied().unwrap_or(rows);
    let bounds = match call.function.places() {
        Places::Neither => return,
        Places::Row => vec![rows],
        Places::Column => vec![columns],
        Places::Both => vec![rows, columns],
    };
    // one of them, or both
    let which = r.below(bounds.len() + 1);
    for (at, bound) in bounds.iter().enumerate() {
        if which == at || which == bounds.len() {
            call.places[at] = bad_place(r, *bound)
        }
    }
}

fn spoil_lengths(r: &mut Random, call: &mut Call, needs: &[usize]) {
    let first = r.below(needs.len());
    for (at, need) in needs.iter().enumerate() {
        if at == first || at > first && r.one_in(3) {
            shorten(r, &mut call.lent[at], *need)
        }
    }
}

fn spoil_sizes(r: &mut Random, call: &mut Call) {
    let first = r.below(call.sizes.len());
    for at in first..call.sizes.len() {
        if at == first || r.one_in(3) {
            call.sizes[at] = bad_size(r)
        }
    }
}

/// Makes an accepted call one that is refused with 1, 2 or 3; those later in the order are often
/// there as well, and must not be answered.
fn spoil(r: &mut Random, call: &mut Call) {
    let needs = call.function.needs(&call.sizes);
    let placed = call.function.places() != Places::Neither;
    let refusal = if placed {
        r.pick(&[1, 2, 3, 3])
    } else {
        r.pick(&[1, 2])
    };
    if placed && (refusal == 3 || r.one_in(3)) {
        spoil_place(r, call)
    }
    let short = refusal == 2 || refusal == 1 && r.one_in(2);
    if short {
        spoil_lengths(r, call, &needs)
    }
    if refusal == 1 {
        spoil_sizes(r, call);
        if !short && call.sizes.iter().all(|s| *s <= 17) {
            lengthen(r, call)
        }
    }
}

/// Where a size is 17: buffers that would be long enough, as far as that makes no long line.
fn lengthen(r: &mut Random, call: &mut Call) {
    let needs = call.function.needs(&call.sizes);
    if needs.iter().sum::<usize>() > 600 {
        return;
    }
    for (b, need) in call.lent.iter_mut().zip(needs) {
        if need <= LONGEST {
            while b.len() < need {
                b.push(mark(r))
            }
        }
    }
}

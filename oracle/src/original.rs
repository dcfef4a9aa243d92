//! A call made to the original's code, and the answer of a line: the original's wherever the rules
//! ask for what the original gives, else the rules', with the tag that says so.

use crate::calls::{same, same_answer, same_buffers, Answer, Call, Function, Tag, BLIND};
use crate::model;
use minikalman::matrix::MatrixDataType;
use pairs::{Filter, Grid, Square};
use triples::Product;

/// What the original leaves behind. The verdict is the decomposition's, else true.
pub struct Outcome {
    pub verdict: bool,
    pub value: f32,
    pub lent: Vec<Vec<f32>>,
}

/// Runs the original. The call has passed refusals 1 to 3.
pub fn run(call: &Call) -> Outcome {
    use Function::*;
    let mut lent = call.lent.clone();
    let s = &call.sizes;
    let v = [
        call.scalars.first().copied().unwrap_or(0.0),
        call.scalars.get(1).copied().unwrap_or(0.0),
    ];
    let (row, column) = model::place(call);
    let at = [row.unwrap_or(0), column.unwrap_or(0)];
    let mut verdict = true;
    let mut value = 0.0;
    let product = |op, lent: &mut Vec<_>| triples::run(op, s[0], s[1], s[2], v[0], lent);
    let mut grid = |op, lent: &mut Vec<_>| value = pairs::run_grid(op, s[0], s[1], at, v[0], lent);
    let mut square = |op, lent: &mut Vec<_>| verdict = pairs::run_square(op, s[0], at, v, lent);
    match call.function {
        Get => grid(Grid::Get, &mut lent),
        Set => grid(Grid::Set, &mut lent),
        GetRowCopy => grid(Grid::RowCopy, &mut lent),
        GetColumnCopy => grid(Grid::ColumnCopy, &mut lent),
        CopyTo => grid(Grid::CopyTo, &mut lent),
        SetAll => grid(Grid::SetAll, &mut lent),
        Clear => grid(Grid::Clear, &mut lent),
        SetZero => grid(Grid::SetZero, &mut lent),
        MultRowvector => grid(Grid::MultRowvector, &mut lent),
        MultaddRowvector => grid(Grid::MultaddRowvector, &mut lent),
        Sub => grid(Grid::Sub, &mut lent),
        SubInplaceA => grid(Grid::SubInplaceA, &mut lent),
        SubInplaceB => grid(Grid::SubInplaceB, &mut lent),
        AddInplaceA => grid(Grid::AddInplaceA, &mut lent),
        AddInplaceB => grid(Grid::AddInplaceB, &mut lent),
        SetSymmetric => square(Square::SetSymmetric, &mut lent),
        SetDiagonalToScalar => square(Square::SetDiagonalToScalar, &mut lent),
        MakeScalar => square(Square::MakeScalar, &mut lent),
        MakeIdentity => square(Square::MakeIdentity, &mut lent),
        MakeComatrix => square(Square::MakeComatrix, &mut lent),
        CholeskyDecomposeLower => square(Square::CholeskyDecomposeLower, &mut lent),
        InvertLCholesky => square(Square::InvertLCholesky, &mut lent),
        Mult => product(Product::Mult, &mut lent),
        MultBuffered => product(Product::MultBuffered, &mut lent),
        MultTransb => product(Product::MultTransb, &mut lent),
        MultaddTransb => product(Product::MultaddTransb, &mut lent),
        MultscaleTransb => product(Product::MultscaleTransb, &mut lent),
        Recip => value = MatrixDataType::recip(v[0]),
        SquareRoot => value = MatrixDataType::square_root(v[0]),
        Predict => square(Square::Predict, &mut lent),
        // The halves of `predict` alone: the other half gets buffers of its own.
        PredictX => {
            let nn = vec![0.0; s[0] * s[0]];
            lent.splice(2..2, [nn.clone(), nn.clone()]);
            lent.push(nn);
            square(Square::Predict, &mut lent);
            lent.pop();
            lent.drain(2..4);
        }
        PredictP => {
            let n = vec![0.0; s[0]];
            lent.insert(0, n.clone());
            lent.insert(4, n);
            square(Square::Predict, &mut lent);
            lent.remove(4);
            lent.remove(0);
        }
        // One yarn: the filter for one state and one observation. The original keeps no count: a prediction
        // leaves the record's, and a correction, which it never refuses, puts it back to 0.
        OneStatePredict => {
            let [x, p, a, q] = [0, 1, 2, 3].map(|i| lent[0][i]);
            let mut all: Vec<_> = [x, a, p, q, 0.0, 0.0].map(|v| vec![v]).into();
            verdict = pairs::run_square(Square::Predict, 1, at, v, &mut all);
            (lent[0][0], lent[0][1]) = (all[0][0], all[2][0])
        }
        OneStateCorrect => {
            let [x, p, h, r] = [0, 1, 4, 5].map(|i| lent[0][i]);
            let mut all: Vec<_> = [x, p, h, v[0], r].map(|v| vec![v]).into();
            all.extend(vec![vec![0.0]; 7]);
            pairs::run_filter(Filter::Correct, 1, 1, &mut all);
            (lent[0][0], lent[0][1]) = (all[0][0], all[1][0]);
            lent[0][BLIND] = f32::from_bits(0)
        }
        Correct => pairs::run_filter(Filter::Correct, s[0], s[1], &mut lent),
        UpdateWithInnovation => {
            lent.insert(3, vec![0.0; s[1]]);
            pairs::run_filter(Filter::Update, s[0], s[1], &mut lent);
            lent.remove(3);
        }
        Innovation => {
            let mut all: Vec<_> = Correct.needs(s).into_iter().map(|n| vec![0.0; n]).collect();
            for (at, b) in [0, 2, 3, 5].into_iter().zip(&lent) {
                all[at].clone_from(b)
            }
            pairs::run_filter(Filter::Innovation, s[0], s[1], &mut all);
            // The filter goes on to x, which an innovation alone does not touch.
            for (at, b) in [2, 3, 5].into_iter().zip(lent.iter_mut().skip(1)) {
                b.clone_from(&all[at])
            }
        }
    }
    Outcome {
        verdict,
        value,
        lent,
    }
}

/// S as the original's products and sum give it before it is decomposed, S's own tail behind it.
fn s_before(n: usize, m: usize, h: &[f32], p: &[f32], r: &[f32], s: &[f32]) -> Vec<f32> {
    let mut first = [h.to_vec(), p.to_vec(), vec![0.0; m * n]];
    triples::run(Product::Mult, m, n, n, 0.0, &mut first);
    let [h, _, hp] = first;
    let mut second = [hp, h, s.to_vec()];
    triples::run(Product::MultTransb, m, n, m, 0.0, &mut second);
    let [_, _, s] = second;
    let mut third = [s, r.to_vec()];
    pairs::run_grid(Grid::AddInplaceA, m, m, [0, 0], 0.0, &mut third);
    let [s, _] = third;
    s
}

/// The answer to a call and where it comes from; an error if the original and the rules' steps
/// differ where they should agree.
pub fn answer(call: &Call) -> Result<(Tag, Answer), String> {
    use Function::*;
    let (expected, pivot) = model::answer(call);
    let tag = match expected.number {
        1 => return Ok((Tag::Size, expected)),
        2 => return Ok((Tag::Short, expected)),
        3 => return Ok((Tag::Place, expected)),
        4 if pivot.is_some_and(f32::is_nan) => Tag::NanPivot,
        4 if pivot == Some(f32::INFINITY) => Tag::InfinitePivot,
        4 if call.function == CholeskyDecomposeLower => Tag::Pivot,
        4 => Tag::Verdict,
        9 => Tag::NotFinite,
        _ => match call.function {
            GetRowCopy if call.places[0] > 0 => Tag::RowCopy,
            SetAll | Clear | SetZero if call.lent[0].len() > call.sizes[0] * call.sizes[1] => {
                Tag::Fill
            }
            _ => Tag::Rust,
        },
    };
    let found = run(call);
    match (tag, new_finite(call, &found.lent)) {
        (Tag::Rust, Some(false)) => return Err("the original's new x or P is not finite".into()),
        (Tag::NotFinite, Some(true)) => return Err("the original's new x and P are finite".into()),
        _ => {}
    }
    let answer = match (tag, call.function) {
        (Tag::RowCopy | Tag::Fill, _) => expected.clone(),
        (Tag::NanPivot | Tag::InfinitePivot, CholeskyDecomposeLower) => {
            if tag == Tag::NanPivot && !found.verdict {
                return Err("the original refuses a NaN pivot".into());
            }
            columns_before(call.sizes[0], expected.carried as usize, &found, &expected)?;
            expected.clone()
        }
        // The original has no record, and goes on: the rules refuse its S, or its new x and p.
        (Tag::NanPivot | Tag::InfinitePivot | Tag::Verdict | Tag::NotFinite, OneStateCorrect) => {
            Answer {
                lent: vec![blinded(&call.lent[0])],
                ..expected
            }
        }
        (Tag::NanPivot | Tag::InfinitePivot | Tag::Verdict, _) => {
            // y and temp_HP as the original computed them, S as the decomposition leaves it,
            // the others as lent.
            let z = usize::from(call.function == Correct);
            let (h, r, y, s, hp) = (2, 3 + z, 4 + z, 5 + z, 8 + z);
            let mut lent = call.lent.clone();
            for at in [y, hp] {
                lent[at].clone_from(&found.lent[at])
            }
            let mut left = s_before(
                call.sizes[0],
                call.sizes[1],
                &call.lent[h],
                &call.lent[1],
                &call.lent[r],
                &call.lent[s],
            );
            let refused = if tag != Tag::Verdict {
                model::decompose(call.sizes[1], &mut left).is_err()
            } else {
                let mut alone = [left];
                let done = pairs::run_square(
                    Square::CholeskyDecomposeLower,
                    call.sizes[1],
                    [0, 0],
                    [0.0, 0.0],
                    &mut alone,
                );
                [left] = alone;
                if !same_buffers(&[left.clone()], &found.lent[s..s + 1]) {
                    return Err("S differs between the correction and its decomposition".into());
                }
                !done
            };
            if !refused {
                return Err("S is refused by the rules' steps alone".into());
            }
            lent[s] = left;
            Answer {
                lent,
                value: 0.0,
                ..expected
            }
        }
        // The work buffers are the original's, which goes on to its end; x and P are as lent.
        (Tag::NotFinite, _) => {
            let mut lent = found.lent;
            lent[..2].clone_from_slice(&call.lent[..2]);
            Answer { lent, ..expected }
        }
        _ => {
            let number = if found.verdict { 0 } else { 4 };
            // The verdict is a bool: the pivot's index is that of the rules' steps.
            let carried = if found.verdict { 0 } else { expected.carried };
            Answer {
                number,
                carried,
                value: found.value,
                lent: found.lent,
            }
        }
    };
    if !same_answer(&answer, &expected) {
        return Err(format!(
            "the original and the rules' steps differ: {}",
            difference(&answer, &expected)
        ));
    }
    Ok((tag, answer))
}

/// The record after a refused correction: the six numbers as lent, the count one up, or 255 still.
fn blinded(yarn: &[f32]) -> Vec<f32> {
    let mut after = yarn.to_vec();
    let count = after[BLIND].to_bits() as u8;
    after[BLIND] = f32::from_bits(count.saturating_add(1).into());
    after
}

/// Whether the new x and P of a correction, of an update or of a record's correction are finite, as the
/// original leaves them. What lies past n and n·n does not count.
fn new_finite(call: &Call, found: &[Vec<f32>]) -> Option<bool> {
    use Function::*;
    let (x, p) = match call.function {
        Correct | UpdateWithInnovation => {
            let n = call.sizes[0];
            (&found[0][..n], &found[1][..n * n])
        }
        OneStateCorrect => found[0][..2].split_at(1),
        _ => return None,
    };
    Some(finite(x) && finite(p))
}

/// No NaN and no infinity.
pub fn finite(b: &[f32]) -> bool {
    b.iter().all(|v| v.is_finite())
}

/// Left of a pivot that the original lets pass, its columns and those of the rules' steps are the same,
/// from the diagonal down.
fn columns_before(
    n: usize,
    pivot: usize,
    found: &Outcome,
    expected: &Answer,
) -> Result<(), String> {
    for c in 0..pivot {
        for r in c..n {
            let at = r * n + c;
            if !same(found.lent[0][at], expected.lent[0][at]) {
                return Err(format!(
                    "cell ({r}, {c}) left of a pivot that the original lets pass"
                ));
            }
        }
    }
    Ok(())
}

/// The first place where two answers differ.
pub fn difference(a: &Answer, b: &Answer) -> String {
    if (a.number, a.carried) != (b.number, b.carried) {
        return format!(
            "answer {} {} and {} {}",
            a.number, a.carried, b.number, b.carried
        );
    }
    if !same(a.value, b.value) {
        return format!(
            "value {:08x} and {:08x}",
            a.value.to_bits(),
            b.value.to_bits()
        );
    }
    for (at, (a, b)) in a.lent.iter().zip(&b.lent).enumerate() {
        if a.len() != b.len() {
            return format!("buffer {at} has {} and {} numbers", a.len(), b.len());
        }
        for (i, (a, b)) in a.iter().zip(b).enumerate() {
            if !same(*a, *b) {
                let (a, b) = (a.to_bits(), b.to_bits());
                return format!("buffer {at}, number {i}: {a:08x} and {b:08x}");
            }
        }
    }
    "none".into()
}

//! What the list rests on: the toolchain's empty sum, the checked examples of docs/RULES.md, that the
//! rules' steps and the original agree on lines of every function, and that lists have what they should.

use crate::calls::{answer_bits, same, same_answer, Answer, Call, Function, Tag, ALL, BLIND};
use crate::examples;
use crate::generate::{asked_lines, Calls, Plan, ENDS};
use crate::inputs::Random;
use crate::model;
use crate::original::{self, finite};
use minikalman::matrix::MatrixDataType;
use std::collections::BTreeSet;

pub fn run() -> bool {
    let (mut passed, mut failed) = (0, 0);
    let mut say = |ok: bool, what: &str| {
        println!("{} {what}", if ok { "ok  " } else { "FAIL" });
        if ok {
            passed += 1
        } else {
            failed += 1
        }
    };

    let empty = std::hint::black_box(&[0f32; 0])
        .iter()
        .copied()
        .sum::<f32>();
    say(empty.to_bits() == 0x8000_0000, "the empty sum of f32 is -0");
    let mut lent = [vec![2.0], vec![3.0], vec![0.0], vec![0.0, 7.0]];
    triples::run(triples::Product::MultBuffered, 1, 1, 1, 0.0, &mut lent);
    say(
        lent[2] == [6.0] && lent[3] == [3.0, 7.0],
        "mult_buffered takes a longer auxiliary: debug assertions are off",
    );
    let mut r = Random::raw(0);
    say(
        [r.next(), r.next()] == [0xe220_a839_7b1d_cdaf, 0x6e78_9e6a_a1b9_65f4],
        "splitmix64 from 0 begins with its published numbers",
    );

    for e in examples::all() {
        // the rules' steps
        let (by_steps, _) = model::answer(&e.call);
        say(
            same_answer(&by_steps, &e.answer),
            &format!("{}: the rules' steps", e.what),
        );
        // the original, for a call that it can be given
        if model::gate(&e.call).is_some() {
            continue;
        }
        let found = original::run(&e.call);
        let mut as_found = e.answer.clone();
        as_found.number = if found.verdict { 0 } else { 4 };
        as_found.value = found.value;
        as_found.lent = found.lent;
        if as_found.number == 0 {
            as_found.carried = 0
        }
        let words: Vec<_> = as_found
            .lent
            .iter()
            .map(|b| {
                b.iter()
                    .map(|v| format!("{:08x}", v.to_bits()))
                    .collect::<Vec<_>>()
                    .join(" ")
            })
            .collect();
        let words = if e.call.function.value() {
            format!("{:08x}", as_found.value.to_bits())
        } else {
            words
                .iter()
                .map(|w| if w.len() > 80 { "..." } else { w })
                .collect::<Vec<_>>()
                .join(" | ")
        };
        if e.differs {
            say(
                !same_answer(&as_found, &e.answer) && found.verdict,
                &format!(
                    "{}: the original accepts it, the listed difference: {words}",
                    e.what
                ),
            )
        } else {
            say(
                same_answer(&as_found, &e.answer),
                &format!("{}: the original: {words}", e.what),
            )
        }
    }

    // Roots: five arguments for each pattern of sign, exponent and leading bits.
    let mut differ = 0;
    for high in 0..=0xffffu32 {
        for low in [0, 1, 0x7fff, 0x8000, 0xffff] {
            let v = f32::from_bits(high << 16 | low);
            let root = MatrixDataType::square_root(v);
            if !same(root, model::square_root(v)) {
                differ += 1
            }
        }
    }
    say(
        differ == 0,
        "327680 roots: the rules' steps and the original agree",
    );

    for f in ALL {
        let lines = if f.sizes() == 3 { 5000 } else { 1000 };
        let mut wrong = None;
        for call in Calls::new(Plan::Even, 20, &[*f]).take(lines) {
            if let Err(e) = original::answer(&call) {
                wrong = Some(format!("sizes {:?}: {e}", call.sizes));
                break;
            }
        }
        let what = format!(
            "{lines} lines of {}: the rules' steps and the original agree",
            f.name()
        );
        match wrong {
            None => say(true, &what),
            Some(e) => say(false, &format!("{what}: {e}")),
        }
    }
    // 1,800 decompositions of a list, of which 1,543 are not refused with 1 or 2.
    let mut infinite = BTreeSet::new();
    for call in Calls::new(Plan::Even, 20, &[Function::CholeskyDecomposeLower]).take(1800) {
        if let Ok((Tag::InfinitePivot, answer)) = original::answer(&call) {
            infinite.insert((call.sizes[0], answer.carried));
        }
    }
    say(
        infinite.len() == 16 * 17 / 2,
        "1800 decompositions have a pivot of +infinity at each index of each size",
    );
    for f in [Function::Correct, Function::UpdateWithInnovation] {
        let seen = Seen::of(f);
        let each = |what: &str| format!("{ROUND} lines of {}: {what}", f.name());
        say(
            seen.readings.len() == 3 * 136,
            &each("a NaN and both infinities at each index of each m, all else finite"),
        );
        say(
            seen.x_alone.len() == 136,
            &each("a new x that is not finite at one index alone, at each of each n, and P finite"),
        );
        say(
            (1..=16).all(|n| {
                let has = |at: usize| seen.p_alone.contains(&(n, at));
                has(n * n - 1) && has(0) && (n < 3 || has(1))
            }),
            &each("the same of P, in its last cell and in its first row, and x finite"),
        );
        say(
            seen.gains.len() == 16 && seen.tails.len() == 16,
            &each("for each n an infinite gain from a finite S; NaN or infinity past x and P, accepted"),
        );
        say(
            !seen.taken,
            &each("none is accepted whose x or P is not finite as lent"),
        )
    }
    // The reading where it is not finite, else 1; whether the original's new x and p are finite.
    let mut records = BTreeSet::new();
    for call in Calls::new(Plan::Even, 20, &[Function::OneStateCorrect]).take(80) {
        if let Ok((Tag::NotFinite, _)) = original::answer(&call) {
            let z = Some(call.scalars[0]).filter(|z| !z.is_finite());
            let found = original::run(&call).lent[0].clone();
            let [x, p] = [0, 1].map(|i| found[i].is_finite());
            records.insert((answer_bits(z.unwrap_or(1.0)), x, p));
        }
    }
    let readings = [f32::NAN, f32::INFINITY, f32::NEG_INFINITY].map(|z| (z, false, true));
    say(
        readings
            .into_iter()
            .chain([(1.0, false, true), (1.0, true, false)])
            .all(|(z, x, p)| records.contains(&(answer_bits(z), x, p))),
        "80 records are refused for z = NaN and both infinities, for x alone and for p alone",
    );
    let records = [Function::OneStatePredict, Function::OneStateCorrect];
    let records: Vec<_> = Calls::new(Plan::Even, 20, &records).take(600).collect();
    for (what, calls) in [("the fixed list", asked_lines(1)), ("600 records", records)] {
        say(
            every_end(&calls),
            &format!("{what}: counts of 0, 254 and 255 predicted, accepted, refused with each pivot and with 9"),
        )
    }
    println!("{passed} passed, {failed} failed");
    failed == 0
}

/// Whether the records among these calls are predicted, accepted, and refused with each kind of pivot and
/// with 9, from each count of `ENDS`.
fn every_end(calls: &[Call]) -> bool {
    let mut seen = BTreeSet::new();
    for call in calls.iter().filter(|call| call.function.record()) {
        if let Ok((tag, _)) = original::answer(call) {
            seen.insert((call.function, tag, call.lent[0][BLIND].to_bits()));
        }
    }
    [
        (Function::OneStatePredict, Tag::Rust),
        (Function::OneStateCorrect, Tag::Rust),
        (Function::OneStateCorrect, Tag::Verdict),
        (Function::OneStateCorrect, Tag::NanPivot),
        (Function::OneStateCorrect, Tag::InfinitePivot),
        (Function::OneStateCorrect, Tag::NotFinite),
    ]
    .iter()
    .all(|(f, tag)| ENDS.iter().all(|blind| seen.contains(&(*f, *tag, *blind))))
}

/// So many lines hold a round of what corrections and updates are asked for: 759 lines, one in ten of those
/// not refused with 1 or 2.
const ROUND: usize = 8860;

/// What a round shows. All but the numbers named are finite as lent.
#[derive(Default)]
struct Seen {
    /// m, the index, and which: NaN or the sign.
    readings: BTreeSet<(usize, usize, u32)>,
    /// n and the index.
    x_alone: BTreeSet<(usize, usize)>,
    p_alone: BTreeSet<(usize, usize)>,
    /// n alone.
    gains: BTreeSet<usize>,
    tails: BTreeSet<usize>,
    /// An x or P that is not finite as lent was accepted.
    taken: bool,
}

impl Seen {
    fn of(f: Function) -> Seen {
        let mut seen = Seen::default();
        for call in Calls::new(Plan::Even, 20, &[f]).take(ROUND) {
            match original::answer(&call) {
                Ok((tag, answer)) if model::gate(&call).is_none() => seen.add(&call, tag, &answer),
                _ => {}
            }
        }
        seen
    }

    fn add(&mut self, call: &Call, tag: Tag, answer: &Answer) {
        let (n, m) = (call.sizes[0], call.sizes[1]);
        let needs = call.function.needs(&call.sizes);
        // x, P, H, z, R and then y, S, K of a correction; x, P, H, R, y and then S, K of an update
        let (read, s, k) = match call.function {
            Function::Correct => (3, 6, 7),
            _ => (4, 5, 6),
        };
        let lent: Vec<&[f32]> = (0..5).map(|b| &call.lent[b][..needs[b]]).collect();
        let bad: Vec<usize> = (0..5).filter(|b| !finite(lent[*b])).collect();
        if tag == Tag::Rust {
            self.taken |= bad.contains(&0) || bad.contains(&1);
            let tail = |b: usize| !finite(&call.lent[b][needs[b]..]);
            if bad.is_empty() && tail(0) && tail(1) {
                self.tails.insert(n);
            }
        }
        if tag != Tag::NotFinite {
            return;
        }
        if bad == [read] {
            if let Some(i) = alone(lent[read]) {
                self.readings.insert((m, i, answer_bits(lent[read][i])));
            }
        }
        if !bad.is_empty() {
            return;
        }
        let found = original::run(call).lent;
        let (x, p) = (&found[0][..n], &found[1][..n * n]);
        match (alone(x), alone(p)) {
            (Some(j), None) if finite(p) => self.x_alone.insert((n, j)),
            (None, Some(at)) if finite(x) => self.p_alone.insert((n, at)),
            _ => false,
        };
        let (s, k) = (&answer.lent[s][..m * m], &answer.lent[k][..n * m]);
        if finite(s) && !finite(k) {
            self.gains.insert(n);
        }
    }
}

/// Where the only number that is not finite is.
fn alone(b: &[f32]) -> Option<usize> {
    let mut all = (0..b.len()).filter(|i| !b[*i].is_finite());
    all.next().filter(|_| all.next().is_none())
}

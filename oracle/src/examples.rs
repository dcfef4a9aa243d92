//! The checked examples of docs/RULES.md and the inputs that tell how the toolchain starts a sum of floats,
//! each with the answer that the rules state.

use crate::calls::{Answer, Call, Function};

pub struct Example {
    pub what: &'static str,
    pub call: Call,
    pub answer: Answer,
    /// The original gives something else, and the rules say so.
    pub differs: bool,
}

const NAN: f32 = f32::NAN;
const INF: f32 = f32::INFINITY;

fn bits(b: u32) -> f32 {
    f32::from_bits(b)
}

fn done(
    what: &'static str,
    function: Function,
    sizes: &[usize],
    before: &[&[f32]],
    after: &[&[f32]],
) -> Example {
    let lists = |l: &[&[f32]]| l.iter().map(|b| b.to_vec()).collect::<Vec<_>>();
    Example {
        what,
        call: Call {
            function,
            sizes: sizes.to_vec(),
            places: vec![],
            scalars: vec![],
            lent: lists(before),
        },
        answer: Answer {
            number: 0,
            carried: 0,
            value: 0.0,
            lent: lists(after),
        },
        differs: false,
    }
}

fn refused(mut e: Example, number: u32, carried: u32) -> Example {
    e.answer.number = number;
    e.answer.carried = carried;
    e
}

fn root(what: &'static str, from: u32, to: u32) -> Example {
    let mut e = done(what, Function::SquareRoot, &[], &[], &[]);
    e.call.scalars = vec![bits(from)];
    e.answer.value = bits(to);
    e
}

/// A call refused with 1 or 2: everything is left as lent.
fn gate(
    what: &'static str,
    f: Function,
    sizes: &[usize],
    length: usize,
    answer: (u32, u32),
) -> Example {
    let b = vec![1.0; length];
    let lent: Vec<&[f32]> = (0..f.buffers()).map(|_| b.as_slice()).collect();
    refused(done(what, f, sizes, &lent, &lent), answer.0, answer.1)
}

pub fn all() -> Vec<Example> {
    use Function::*;
    let a = &[1.0, 1.0, 0.0, 1.0];
    let eye = &[1.0, 0.0, 0.0, 1.0];
    let mut out = vec![
        root("root of 4", 0x4080_0000, 0x4000_0000),
        root("root of 2", 0x4000_0000, 0x3fb5_04f3),
        root("root of the smallest", 0x0000_0001, 0x1a35_04f3),
        root("root of the largest", 0x7f7f_ffff, 0x5f7f_ffff),
        root("root of -0", 0x8000_0000, 0x8000_0000),
        done(
            "x by A",
            PredictX,
            &[2],
            &[&[3.0, 2.0], a, &[7.0, 7.0]],
            &[&[5.0, 2.0], a, &[5.0, 2.0]],
        ),
        done(
            "P by A and Q",
            PredictP,
            &[2],
            &[a, &[2.0, 1.0, 1.0, 3.0], eye, &[7.0; 4]],
            &[a, &[8.0, 4.0, 4.0, 4.0], eye, &[3.0, 4.0, 1.0, 3.0]],
        ),
        done(
            "x, P by A and Q",
            Predict,
            &[2],
            &[
                &[3.0, 2.0],
                a,
                &[2.0, 1.0, 1.0, 3.0],
                eye,
                &[7.0; 2],
                &[7.0; 4],
            ],
            &[
                &[5.0, 2.0],
                a,
                &[8.0, 4.0, 4.0, 4.0],
                eye,
                &[5.0, 2.0],
                &[3.0, 4.0, 1.0, 3.0],
            ],
        ),
        done(
            "[4 2; 2 5] decomposes",
            CholeskyDecomposeLower,
            &[2],
            &[&[4.0, 2.0, 2.0, 5.0]],
            &[&[2.0, 0.0, 1.0, 2.0]],
        ),
        done(
            "[4 2; NaN 5] decomposes",
            CholeskyDecomposeLower,
            &[2],
            &[&[4.0, 2.0, NAN, 5.0]],
            &[&[2.0, 0.0, 1.0, 2.0]],
        ),
        done(
            "[2 0; 1 2] inverts",
            InvertLCholesky,
            &[2],
            &[&[2.0, 0.0, 1.0, 2.0], &[7.0; 4]],
            &[&[2.0, 0.0, 1.0, 2.0], &[0.3125, -0.125, -0.125, 0.25]],
        ),
        refused(
            done(
                "[1 2; 2 1] is refused",
                CholeskyDecomposeLower,
                &[2],
                &[&[1.0, 2.0, 2.0, 1.0]],
                &[&[1.0, 2.0, 2.0, -3.0]],
            ),
            4,
            1,
        ),
        refused(
            done(
                "[-5] is refused",
                CholeskyDecomposeLower,
                &[1],
                &[&[-5.0]],
                &[&[-0.0]],
            ),
            4,
            0,
        ),
    ];
    for (what, pivot) in [("[NaN] is refused", NAN), ("[+infinity] is refused", INF)] {
        let mut e = refused(
            done(what, CholeskyDecomposeLower, &[1], &[&[pivot]], &[&[NAN]]),
            4,
            0,
        );
        e.differs = true;
        out.push(e)
    }
    let mut second = refused(
        done(
            "[4 2; 2 +infinity] is refused",
            CholeskyDecomposeLower,
            &[2],
            &[&[4.0, 2.0, 2.0, INF]],
            &[&[2.0, 2.0, 1.0, INF]],
        ),
        4,
        1,
    );
    second.differs = true;
    out.push(second);
    out.extend([
        done(
            "[3.4028235e38] decomposes",
            CholeskyDecomposeLower,
            &[1],
            &[&[f32::MAX]],
            &[&[bits(0x5f7f_ffff)]],
        ),
        done(
            "[+infinity] inverts",
            InvertLCholesky,
            &[1],
            &[&[INF], &[7.0]],
            &[&[INF], &[0.0]],
        ),
        done(
            "x = 1, P = 3, H = R = 1, z = 5",
            Correct,
            &[1, 1],
            &[
                &[1.0],
                &[3.0],
                &[1.0],
                &[5.0],
                &[1.0],
                &[7.0],
                &[7.0],
                &[7.0],
                &[7.0],
                &[7.0],
                &[7.0],
                &[7.0],
            ],
            &[
                &[4.0],
                &[0.75],
                &[1.0],
                &[5.0],
                &[1.0],
                &[4.0],
                &[2.0],
                &[0.75],
                &[0.25],
                &[3.0],
                &[3.0],
                &[2.25],
            ],
        ),
        done(
            "[-1] times [0] by mult_rowvector",
            MultRowvector,
            &[1, 1],
            &[&[-1.0], &[0.0], &[7.0]],
            &[&[-1.0], &[0.0], &[-0.0]],
        ),
        done(
            "[-1] times [0] by mult",
            Mult,
            &[1, 1, 1],
            &[&[-1.0], &[0.0], &[7.0]],
            &[&[-1.0], &[0.0], &[0.0]],
        ),
        done(
            "16777215 and 1 make 16777216",
            PredictX,
            &[2],
            &[&[16_777_215.0, 1.0], a, &[7.0; 2]],
            &[&[16_777_216.0, 1.0], a, &[16_777_216.0, 1.0]],
        ),
        done(
            "16777216 and 1 make 16777216",
            PredictX,
            &[2],
            &[&[16_777_216.0, 1.0], a, &[7.0; 2]],
            &[&[16_777_216.0, 1.0], a, &[16_777_216.0, 1.0]],
        ),
        gate("size 0 gives 1", CholeskyDecomposeLower, &[0], 9, (1, 0)),
        gate(
            "size 17 gives 1",
            CholeskyDecomposeLower,
            &[17],
            300,
            (1, 0),
        ),
        gate(
            "size 17 with a short buffer gives 1",
            CholeskyDecomposeLower,
            &[17],
            8,
            (1, 0),
        ),
        gate(
            "length 8 for a 3 by 3 gives 2",
            CholeskyDecomposeLower,
            &[3],
            8,
            (2, 0),
        ),
    ]);
    for (what, n, length) in [
        ("size 1 is taken", 1, 1),
        ("size 16 is taken", 16, 256),
        ("length 9 for a 3 by 3 is taken", 3, 9),
        ("length 10 for a 3 by 3 is taken", 3, 10),
    ] {
        let mut before = vec![0.0; length];
        (0..n).for_each(|i| before[i * n + i] = 1.0);
        out.push(done(
            what,
            CholeskyDecomposeLower,
            &[n],
            &[&before],
            &[&before],
        ))
    }
    // R = +infinity: S is, and the correction is refused; so is the record's.
    let rest: &[f32] = &[7.0];
    let mut wire = refused(
        done(
            "x = 1, P = 3, H = 1, R = +infinity, z = 5 is refused",
            Correct,
            &[1, 1],
            &[
                &[1.0],
                &[3.0],
                &[1.0],
                &[5.0],
                &[INF],
                rest,
                rest,
                rest,
                rest,
                rest,
                rest,
                rest,
            ],
            &[
                &[1.0],
                &[3.0],
                &[1.0],
                &[5.0],
                &[INF],
                &[4.0],
                &[NAN],
                rest,
                rest,
                &[3.0],
                rest,
                rest,
            ],
        ),
        4,
        0,
    );
    wire.differs = true;
    out.push(wire);
    // z = NaN: no pivot tells it, the new x does.
    let mut reading = refused(
        done(
            "x = 1, P = 3, H = R = 1, z = NaN is refused",
            Correct,
            &[1, 1],
            &[
                &[1.0],
                &[3.0],
                &[1.0],
                &[NAN],
                &[1.0],
                rest,
                rest,
                rest,
                rest,
                rest,
                rest,
                rest,
            ],
            &[
                &[1.0],
                &[3.0],
                &[1.0],
                &[NAN],
                &[1.0],
                &[NAN],
                &[2.0],
                &[0.75],
                &[0.25],
                &[3.0],
                &[3.0],
                &[2.25],
            ],
        ),
        9,
        0,
    );
    reading.differs = true;
    out.push(reading);
    // A record's six numbers and its count, before and after.
    let record = |what, f, before: ([f32; 6], u32), after: ([f32; 6], u32)| {
        let [before, after] =
            [before, after].map(|(six, blind)| [&six[..], &[bits(blind)]].concat());
        done(what, f, &[], &[&before], &[&after])
    };
    let good = [1.0, 3.0, 1.0, 0.0, 1.0, 1.0];
    for (what, blind) in [
        ("the record x = 1, p = 3, h = r = 1, z = 5", 0),
        ("the record with z = 5 after 7 refusals", 7),
    ] {
        let after = [4.0, 0.75, 1.0, 0.0, 1.0, 1.0];
        let mut e = record(what, OneStateCorrect, (good, blind), (after, 0));
        e.call.scalars = vec![5.0];
        out.push(e)
    }
    let broken = [1.0, 3.0, 1.0, 0.0, 1.0, INF];
    for (what, z, six, number, from, to) in [
        (
            "the record with r = +infinity is refused",
            5.0,
            broken,
            4,
            0,
            1,
        ),
        ("the record with z = NaN is refused", NAN, good, 9, 2, 3),
        ("the record's 255th refusal", 5.0, broken, 4, 254, 255),
        ("the record's 256th refusal", NAN, good, 9, 255, 255),
    ] {
        let e = record(what, OneStateCorrect, (six, from), (six, to));
        let mut e = refused(e, number, 0);
        e.call.scalars = vec![z];
        e.differs = true;
        out.push(e)
    }
    out.push(record(
        "the record x = 1, p = 3, a = 2, q = 1 predicted after 9 refusals",
        OneStatePredict,
        ([1.0, 3.0, 2.0, 1.0, 1.0, 1.0], 9),
        ([2.0, 13.0, 2.0, 1.0, 1.0, 1.0], 9),
    ));
    // Two inputs that tell a sum of floats that starts at -0 from one that starts at +0.
    out.push(done(
        "[1 0; 0 -1] inverts with +0 off the diagonal",
        InvertLCholesky,
        &[2],
        &[&[1.0, 0.0, 0.0, -1.0], &[7.0; 4]],
        &[&[1.0, 0.0, 0.0, -1.0], &[1.0, 0.0, 0.0, 1.0]],
    ));
    let mut s = done(
        "[1 1e-30; 1e-30 1e36] decomposes",
        CholeskyDecomposeLower,
        &[2],
        &[&[1.0, 1e-30, 1e-30, 1e36]],
        &[&[1.0, 0.0, 1e-30, 1e18]],
    );
    // The root of 1e36's float, not the float of 1e18.
    let corner = bits(crate::model::square_root(1e36).to_bits());
    s.answer.lent[0][3] = corner;
    out.push(s);
    let l = [1.0, 0.0, 1e-30, corner];
    let tiny = (1.0 / corner) * (1.0 / corner);
    out.push(done(
        "and inverts with -0 off the diagonal",
        InvertLCholesky,
        &[2],
        &[&l, &[7.0; 4]],
        &[&l, &[1.0, -0.0, -0.0, tiny]],
    ));
    out
}

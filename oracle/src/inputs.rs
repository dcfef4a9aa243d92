//! The random numbers, and the kinds of numbers and matrices that a line is made of.

/// splitmix64: a state that grows by a constant, and a mix of it.
pub struct Random(u64);

impl Random {
    pub fn raw(state: u64) -> Random {
        Random(state)
    }

    /// A stream of its own for each (seed, function, count).
    pub fn new(seed: u64, function: u64, count: u64) -> Random {
        let mut r = Random(seed);
        r.0 = r.next() ^ function.wrapping_mul(0xd6e8_feb8_6659_fd93);
        r.0 = r.next() ^ count.wrapping_mul(0xa076_1d64_78bd_642f);
        r
    }

    pub fn next(&mut self) -> u64 {
        self.0 = self.0.wrapping_add(0x9e37_79b9_7f4a_7c15);
        let mut z = self.0;
        z = (z ^ z >> 30).wrapping_mul(0xbf58_476d_1ce4_e5b9);
        z = (z ^ z >> 27).wrapping_mul(0x94d0_49bb_1331_11eb);
        z ^ z >> 31
    }

    /// From 0 to below n.
    pub fn below(&mut self, n: usize) -> usize {
        ((self.next() >> 32) * n as u64 >> 32) as usize
    }

    pub fn one_in(&mut self, n: usize) -> bool {
        self.below(n) == 0
    }

    pub fn pick<T: Copy>(&mut self, from: &[T]) -> T {
        from[self.below(from.len())]
    }

    /// From 0 to below 1.
    fn unit(&mut self) -> f64 {
        (self.next() >> 11) as f64 / (1u64 << 53) as f64
    }

    /// From -1 to below 1.
    fn signed(&mut self) -> f64 {
        2.0 * self.unit() - 1.0
    }
}

/// What kind of numbers a buffer holds.
#[derive(Clone, Copy, PartialEq, Eq, Debug)]
pub enum Kind {
    /// -1 to 1, times a power of two that a whole matrix shares.
    Ordinary,
    /// Any 32 bits.
    Bits,
    /// NaN, infinities, zeros, subnormals, largest, smallest, ones.
    Specials,
    /// Whole numbers of at most 12 in absolute value, both zeros among them.
    Whole,
    /// Whole numbers near 2^24, where sums begin to round.
    WholeLarge,
    /// Any bits with an exponent from -20 to 20.
    Wide,
    /// Subnormal and smallest normal numbers.
    Tiny,
    /// Numbers whose products and sums overflow.
    Huge,
    /// Zeros of either sign, and a few ones: they tell how a sum starts.
    Signs,
    /// Each number of another kind.
    Mixed,
}

pub const KINDS: &[Kind] = &[
    Kind::Ordinary,
    Kind::Bits,
    Kind::Specials,
    Kind::Whole,
    Kind::WholeLarge,
    Kind::Wide,
    Kind::Tiny,
    Kind::Huge,
    Kind::Signs,
    Kind::Mixed,
];

pub const SPECIALS: &[u32] = &[
    0x0000_0000, // +0
    0x8000_0000, // -0
    0x7f80_0000, // +infinity
    0xff80_0000, // -infinity
    0x7fc0_0000, // NaN
    0xffc0_0001, // NaN, sign set
    0x7f80_0001, // NaN, signalling
    0x0000_0001, // smallest subnormal
    0x8000_0001,
    0x007f_ffff, // largest subnormal
    0x807f_ffff,
    0x0080_0000, // smallest normal
    0x8080_0000,
    0x7f7f_ffff, // largest
    0xff7f_ffff,
    0x3f80_0000, // 1
    0xbf80_0000,
    0x3f80_0001, // 1 and the next
    0x3f7f_ffff,
    0x4b80_0000, // 2^24
];

/// Quiet, with its sign and other bits set, or signalling.
pub fn nan(r: &mut Random) -> f32 {
    f32::from_bits(r.pick(&[0x7fc0_0000, 0xffc0_1234, 0x7f80_0001]))
}

pub fn not_finite(r: &mut Random) -> f32 {
    match r.below(3) {
        0 => f32::INFINITY,
        1 => f32::NEG_INFINITY,
        _ => nan(r),
    }
}

pub fn number(r: &mut Random, kind: Kind) -> f32 {
    match kind {
        Kind::Ordinary => r.signed() as f32,
        Kind::Bits => f32::from_bits(r.next() as u32),
        Kind::Specials => f32::from_bits(r.pick(SPECIALS)),
        Kind::Whole => {
            let v = r.below(25) as f32 - 12.0;
            if v == 0.0 && r.one_in(2) {
                -0.0
            } else {
                v
            }
        }
        Kind::WholeLarge => {
            let v = (16_777_216 - r.below(40) as i64 * r.pick(&[0, 1, 1 << 10, 1 << 18])) as f32;
            if r.one_in(2) {
                -v
            } else {
                v
            }
        }
        Kind::Wide => {
            let bits = r.next() as u32;
            f32::from_bits(bits & 0x807f_ffff | (107 + r.below(41) as u32) << 23)
        }
        Kind::Tiny => f32::from_bits(r.next() as u32 & 0x80ff_ffff),
        Kind::Huge => {
            let bits = r.next() as u32;
            f32::from_bits(
                bits & 0x807f_ffff | (250 - r.below(64) as u32 * r.below(2) as u32) << 23,
            )
        }
        Kind::Signs => r.pick(&[0.0, 0.0, 0.0, -0.0, -0.0, -0.0, 1.0, -1.0]),
        Kind::Mixed => {
            let kind = r.pick(&KINDS[..KINDS.len() - 1]);
            number(r, kind)
        }
    }
}

/// `count` numbers of a kind.
pub fn numbers(r: &mut Random, kind: Kind, count: usize) -> Vec<f32> {
    let scale = 2f32.powi(r.below(17) as i32 - 8);
    // Specials alone are NaN all over after one product: most lines thin them out.
    let thin = if matches!(kind, Kind::Specials | Kind::Bits | Kind::Mixed) {
        r.below(4)
    } else {
        0
    };
    (0..count)
        .map(|_| {
            let v = if thin > 0 && r.below(8) >= 8 >> thin {
                number(r, Kind::Ordinary)
            } else {
                number(r, kind)
            };
            if kind == Kind::Ordinary {
                v * scale
            } else {
                v
            }
        })
        .collect()
}

/// What a symmetric matrix (P, R, Q or a matrix to decompose) is like.
#[derive(Clone, Copy, PartialEq, Eq, Debug)]
pub enum Shape {
    /// Well above zero.
    Good,
    /// Well above zero, of whole numbers.
    GoodWhole,
    /// Diagonal, positive; the zeros of either sign.
    Diagonal,
    /// Good in the upper triangle, other numbers in the lower.
    Damaged,
    /// Rank one and next to nothing more: pivots are rounding noise.
    Nearly,
    /// Good, with one diagonal entry that makes its pivot negative or zero.
    Indefinite,
    /// Good, with a NaN on the diagonal or above it.
    NanPivot,
    /// Good, with an infinity on the diagonal or above it.
    Infinite,
    /// Good, with +infinity on the diagonal at this index.
    InfiniteAt(usize),
    /// Good, scaled to the ends of the range.
    Ends,
    /// Good, subnormal: what it inverts to is infinite.
    Low,
    /// Numbers of any kind, symmetric.
    Any,
    /// Numbers of any kind.
    Lopsided,
}

fn good(r: &mut Random, n: usize, power: i32) -> Vec<f32> {
    let inner = n + 2;
    let b: Vec<f64> = (0..n * inner).map(|_| r.signed()).collect();
    let scale = 2f64.powi(power);
    let mut out = vec![0.0; n * n];
    for i in 0..n {
        for j in 0..n {
            let mut sum: f64 = (0..inner)
                .map(|k| b[i * inner + k] * b[j * inner + k])
                .sum();
            if i == j {
                sum += 0.125
            }
            out[i * n + j] = (sum * scale) as f32
        }
    }
    out
}

pub fn symmetric(r: &mut Random, shape: Shape, n: usize) -> Vec<f32> {
    let power = r.below(13) as i32 - 6;
    let at = r.below(n);
    let right = at + r.below(n - at);
    match shape {
        Shape::Good => good(r, n, power),
        Shape::GoodWhole => {
            // L times its transpose, L whole with a positive diagonal
            let mut l = vec![0i64; n * n];
            for i in 0..n {
                for j in 0..i {
                    l[i * n + j] = r.below(7) as i64 - 3
                }
                l[i * n + i] = 1 + r.below(4) as i64
            }
            let cell = |i: usize, j: usize| {
                (0..n).map(|k| l[i * n + k] * l[j * n + k]).sum::<i64>() as f32
            };
            (0..n * n).map(|c| cell(c / n, c % n)).collect()
        }
        Shape::Diagonal => {
            let mut out: Vec<f32> = match r.below(3) {
                0 => vec![0.0; n * n],
                _ => (0..n * n).map(|_| r.pick(&[0.0, -0.0])).collect(),
            };
            for i in 0..n {
                out[i * n + i] = (r.unit() + 0.01) as f32 * 2f32.powi(power)
            }
            out
        }
        Shape::Damaged => {
            let mut out = good(r, n, power);
            let kind = r.pick(KINDS);
            for i in 0..n {
                for j in 0..i {
                    out[i * n + j] = number(r, kind)
                }
            }
            out
        }
        Shape::Nearly => {
            let v: Vec<f64> = (0..n).map(|_| r.signed() * 2f64.powi(power)).collect();
            let more = r.pick(&[0.0, 1e-8, 1e-7, 3e-7, 1e-6, -1e-7]);
            let cell = |i: usize, j: usize| {
                (v[i] * v[j] + if i == j { more * v[i] * v[i] } else { 0.0 }) as f32
            };
            (0..n * n).map(|c| cell(c / n, c % n)).collect()
        }
        Shape::Indefinite => {
            let mut out = good(r, n, power);
            let cell = &mut out[at * n + at];
            *cell = match r.below(4) {
                0 => 0.0,
                1 => -0.0,
                2 => -*cell,
                _ => *cell * -(r.unit() as f32) * 64.0,
            };
            out
        }
        Shape::NanPivot => {
            let mut out = good(r, n, power);
            out[at * n + right] = nan(r);
            out
        }
        Shape::Infinite => {
            let mut out = good(r, n, power);
            out[at * n + right] = r.pick(&[f32::INFINITY, f32::INFINITY, f32::NEG_INFINITY]);
            out
        }
        Shape::InfiniteAt(index) => {
            let mut out = good(r, n, power);
            out[index * n + index] = f32::INFINITY;
            out
        }
        Shape::Ends => {
            let power = r.pick(&[-148, -140, -128, -110, 100, 120, 125]);
            good(r, n, power)
        }
        Shape::Low => good(r, n, -138),
        Shape::Any => {
            let kind = r.pick(KINDS);
            let mut out = numbers(r, kind, n * n);
            for i in 0..n {
                for j in 0..i {
                    out[i * n + j] = out[j * n + i]
                }
            }
            out
        }
        Shape::Lopsided => {
            let kind = r.pick(KINDS);
            numbers(r, kind, n * n)
        }
    }
}

/// A shape, those that a filter meets most often first.
pub fn shape(r: &mut Random) -> Shape {
    match r.below(100) {
        0..=21 => Shape::Good,
        22..=31 => Shape::GoodWhole,
        32..=36 => Shape::Diagonal,
        37..=48 => Shape::Damaged,
        49..=60 => Shape::Nearly,
        61..=72 => Shape::Indefinite,
        73..=82 => Shape::NanPivot,
        83..=86 => Shape::Infinite,
        87..=91 => Shape::Ends,
        92..=96 => Shape::Any,
        _ => Shape::Lopsided,
    }
}

/// Marked numbers for a tail: dead and four digits, which is a finite float.
pub fn mark(r: &mut Random) -> f32 {
    f32::from_bits(0xdead_0000 | r.next() as u32 & 0xffff)
}

//! A stable, ordinary model for each size: dense A with row sums below 1, P, Q and R positive
//! definite, H dense, and a ring of readings, so that no number runs off or fades to a subnormal.

pub const READINGS: usize = 64;

/// The most records of a row.
pub const FEEDERS: usize = 12;

pub struct Model<const N: usize, const M: usize, const NN: usize, const MN: usize, const MM: usize>
{
    pub x: [f32; N],
    pub a: [f32; NN],
    pub p: [f32; NN],
    pub q: [f32; NN],
    pub h: [f32; MN],
    pub r: [f32; MM],
    pub z: [[f32; M]; READINGS],
}

/// splitmix64, as numbers from −1 to 1.
pub struct Numbers(u64);

impl Numbers {
    pub fn new(seed: u64) -> Numbers {
        Numbers(seed)
    }

    pub fn next(&mut self) -> f32 {
        (self.bits() >> 40) as f32 / 8_388_608.0 - 1.0
    }

    /// Any 64 bits.
    pub fn bits(&mut self) -> u64 {
        self.0 = self.0.wrapping_add(0x9e37_79b9_7f4a_7c15);
        let mut v = self.0;
        v = (v ^ (v >> 30)).wrapping_mul(0xbf58_476d_1ce4_e5b9);
        v = (v ^ (v >> 27)).wrapping_mul(0x94d0_49bb_1331_11eb);
        v ^ (v >> 31)
    }

    /// From 0 to below n.
    pub fn below(&mut self, n: usize) -> usize {
        (((self.bits() >> 32) * n as u64) >> 32) as usize
    }

    pub fn pick<T: Copy>(&mut self, from: &[T]) -> T {
        from[self.below(from.len())]
    }
}

/// Fills a dense matrix whose row sums are below 1.
pub fn fill_transition(a: &mut [f32], size: usize, from: &mut Numbers) {
    for i in 0..size {
        for j in 0..size {
            a[i * size + j] = if i == j {
                0.85
            } else {
                0.1 / size as f32 * from.next()
            };
        }
    }
}

/// Fills a symmetric matrix with `diagonal` and smaller numbers beside it: positive definite.
pub fn fill_covariance(m: &mut [f32], size: usize, diagonal: f32, from: &mut Numbers) {
    for i in 0..size {
        for j in 0..i {
            let v = from.next() * diagonal * 0.4 / size as f32;
            m[i * size + j] = v;
            m[j * size + i] = v;
        }
        m[i * size + i] = diagonal * (1.0 + 0.25 * from.next());
    }
}

/// The same in an array of its own.
pub fn covariance<const L: usize>(size: usize, diagonal: f32, from: &mut Numbers) -> [f32; L] {
    let mut m = [0.0; L];
    fill_covariance(&mut m, size, diagonal, from);
    m
}

pub fn model<const N: usize, const M: usize, const NN: usize, const MN: usize, const MM: usize>(
) -> Model<N, M, NN, MN, MM> {
    let mut from = Numbers::new((N * 100 + M) as u64);
    let mut a = [0.0; NN];
    fill_transition(&mut a, N, &mut from);
    Model {
        x: std::array::from_fn(|_| 1.0 + from.next()),
        a,
        p: covariance(N, 2.0, &mut from),
        q: covariance(N, 0.1, &mut from),
        h: std::array::from_fn(|_| from.next()),
        r: covariance(M, 0.5, &mut from),
        z: std::array::from_fn(|_| std::array::from_fn(|_| 3.0 + from.next())),
    }
}

/// x, p, a, q, h and r of a feeder, as stable and ordinary as the model.
pub fn feeder(from: &mut Numbers) -> [f32; 6] {
    [
        1.0 + from.next(),
        covariance::<1>(1, 2.0, from)[0],
        0.85 + 0.1 * from.next(),
        covariance::<1>(1, 0.1, from)[0],
        1.0 + 0.25 * from.next(),
        covariance::<1>(1, 0.5, from)[0],
    ]
}

/// What it reads.
pub fn reading(from: &mut Numbers) -> f32 {
    3.0 + from.next()
}

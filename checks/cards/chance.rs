//! Numbers by chance, the same in every run, and models of them.

use crate::reader::{entries, Model};

/// Numbers by chance from a seed (splitmix64).
pub struct Chance(u64);

impl Chance {
    pub fn new(seed: u64) -> Chance {
        Chance(seed)
    }

    pub fn next(&mut self) -> u64 {
        self.0 = self.0.wrapping_add(0x9e37_79b9_7f4a_7c15);
        let mut z = self.0;
        z = (z ^ (z >> 30)).wrapping_mul(0xbf58_476d_1ce4_e5b9);
        z = (z ^ (z >> 27)).wrapping_mul(0x94d0_49bb_1331_11eb);
        z ^ (z >> 31)
    }

    /// A number below this one, which is not 0.
    pub fn below(&mut self, n: usize) -> usize {
        (self.next() % n as u64) as usize
    }

    /// One of these.
    pub fn of<T: Copy>(&mut self, these: &[T]) -> T {
        these[self.below(these.len())]
    }

    /// True once in so many times.
    pub fn once_in(&mut self, n: usize) -> bool {
        self.below(n) == 0
    }
}

/// Zeros, ones, the ends of the subnormal, normal and infinite numbers, and NaNs of every kind.
const SPECIAL: [u32; 20] = [
    0x0000_0000,
    0x8000_0000,
    0x3f80_0000,
    0xbf80_0000,
    0x0000_0001,
    0x8000_0001,
    0x007f_ffff,
    0x0080_0000,
    0x7f7f_ffff,
    0xff7f_ffff,
    0x7f80_0000,
    0xff80_0000,
    0x7f80_0001,
    0x7fbf_ffff,
    0x7fc0_0000,
    0x7fff_ffff,
    0xff80_0001,
    0xffc0_0000,
    0xffff_ffff,
    0x3c80_0000,
];

/// One of them.
pub fn special(by: &mut Chance) -> u32 {
    by.of(&SPECIAL)
}

/// Any pattern, one in four a special one.
pub fn pattern(by: &mut Chance) -> u32 {
    if by.once_in(4) {
        special(by)
    } else {
        by.next() as u32
    }
}

/// A NaN of any pattern: a sign by chance, and some digit below the exponent.
pub fn nan(by: &mut Chance) -> u32 {
    let digits = 1 + by.below(0x7f_ffff) as u32;
    by.of(&[0x7f80_0000, 0xff80_0000]) + digits
}

/// A model of these sizes, of numbers that are made so.
pub fn model_of(
    states: usize,
    observations: usize,
    by: &mut Chance,
    number: fn(&mut Chance) -> u32,
) -> Model {
    let matrices = entries(states, observations).map(|many| (0..many).map(|_| number(by)).collect());
    Model { states, observations, matrices }
}

/// A model of these sizes.
pub fn model(states: usize, observations: usize, by: &mut Chance) -> Model {
    model_of(states, observations, by, pattern)
}

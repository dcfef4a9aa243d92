//! Models by chance, and calls of the writer with them: some are refused.

use crate::chance::{model_of, nan, pattern, special, Chance};
use crate::reader::Model;
use crate::writer::length;

/// A call of the writer: both sizes, the patterns in the four buffers, and how many bytes are lent.
pub struct Call {
    pub states: usize,
    pub observations: usize,
    pub buffers: [Vec<u32>; 4],
    pub bytes: usize,
}

/// Both sizes: one in four of any from 1 to 16, else small.
fn sizes(by: &mut Chance) -> (usize, usize) {
    match by.below(20) {
        0..=4 => (1 + by.below(16), 1 + by.below(16)),
        5..=9 => (1 + by.below(4), 1 + by.below(4)),
        _ => (1 + by.below(2), 1 + by.below(2)),
    }
}

/// A number that settings have: thousandths up to a thousand, of both signs.
fn ordinary(by: &mut Chance) -> u32 {
    let thousandths = by.below(2_000_001) as f32 - 1_000_000.0;
    (thousandths / 1000.0).to_bits()
}

/// A zero, or a number so small that it has fewer digits.
fn subnormal(by: &mut Chance) -> u32 {
    by.of(&[0, 0x8000_0000]) + by.below(0x80_0000) as u32
}

/// A model of any sizes, its numbers of one kind or of all.
pub fn model(by: &mut Chance) -> Model {
    let (n, m) = sizes(by);
    let number = by.of(&[pattern, pattern, pattern, special, nan, ordinary, subnormal]);
    model_of(n, m, by, number)
}

/// Sizes that no model has.
const WRONG: [usize; 12] = [0, 0, 17, 17, 18, 32, 255, 256, 1 << 16, (1 << 32) + 1, 1 << 63, usize::MAX];

/// A length below this one: mostly by one.
fn shorter(len: usize, by: &mut Chance) -> usize {
    if by.once_in(2) {
        len - 1
    } else {
        by.below(len)
    }
}

/// The writing of this model: mostly with room enough, just enough or more; else with one thing that is
/// refused or several, sizes, short buffers, and too few bytes.
pub fn call(model: &Model, by: &mut Chance) -> Call {
    let length = length(model.states, model.observations).expect("sizes of a model");
    let mut call = Call {
        states: model.states,
        observations: model.observations,
        buffers: model.matrices.clone(),
        bytes: length,
    };
    if by.once_in(4) {
        call.bytes += by.below(80);
    }
    if by.once_in(4) {
        for buffer in &mut call.buffers {
            let more = by.below(6);
            buffer.extend((0..more).map(|_| pattern(by)));
        }
    }
    if by.once_in(4) {
        for _ in 0..by.of(&[1, 1, 2, 4]) {
            match by.below(7) {
                0 => call.states = by.of(&WRONG),
                1 => call.observations = by.of(&WRONG),
                b @ 2..=5 => {
                    let len = shorter(model.matrices[b - 2].len(), by);
                    call.buffers[b - 2].truncate(len);
                }
                _ => call.bytes = shorter(length, by),
            }
        }
    }
    call
}

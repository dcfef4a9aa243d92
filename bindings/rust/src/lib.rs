#![doc = include_str!("../README.md")]
#![no_std]
#![deny(missing_docs)]

mod cards;
mod cells;
mod correction;
mod factors;
mod feeders;
mod filter;
mod numbers;
mod one_state;
mod prediction;
mod products;
mod refusal;
mod sums;
mod sys;

pub use cards::{card_length, from_card, read_card, to_card, write_card, CardError, Sizes};
pub use cells::*;
pub use correction::{correct, innovation, update};
pub use factors::{cholesky_decompose_lower, invert_l_cholesky};
pub use feeders::{correct_feeders, predict_feeders, Corrections, Feeders};
pub use filter::{Filter, Observation};
pub use numbers::{recip, square_root};
pub use one_state::OneState;
pub use prediction::{predict, predict_p, predict_x};
pub use products::*;
pub use refusal::Refusal;
pub use sums::*;

use refusal::answer;

/// The largest size: states, observations, rows, columns.
pub const MAX_SIZE: usize = 16;

/// The most feeders of a row.
pub const MAX_FEEDERS: usize = 12;

/// The most bytes of a card: that of 16 states and 16 observations.
pub const MAX_CARD: usize = 9260;

//! The original as the oracle builds it (its five files by path, unchanged, and the oracle's shim),
//! with one thing more: buffers that own an array of known size, as its users have them.

#![allow(warnings)]

pub mod held;
#[path = "../../oracle/minikalman/kalman.rs"]
pub mod kalman;
#[path = "../../oracle/minikalman/lent.rs"]
pub mod lent;
#[path = "../../oracle/minikalman/matrix.rs"]
pub mod matrix;
#[path = "../../oracle/minikalman/observations.rs"]
pub mod observations;

pub mod prelude {
    pub use crate::kalman::*;
    pub use crate::matrix::*;
}

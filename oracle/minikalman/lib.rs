//! The five files of minikalman 0.8.1, unchanged, and around them what they name and do not hold:
//! a lent buffer that is a matrix, and the traits of the two `regular.rs` files.

#![allow(warnings)]

pub mod kalman;
pub mod lent;
pub mod matrix;
pub mod observations;

pub mod prelude {
    pub use crate::kalman::*;
    pub use crate::matrix::*;
}

//! A matrix of R rows and C columns in an array of its own, L = R·C numbers.

use crate::kalman::*;
use crate::matrix::*;
use core::ops::{Index, IndexMut};

pub struct Held<const R: usize, const C: usize, const L: usize>(pub [f32; L]);

impl<const R: usize, const C: usize, const L: usize> RowMajorSequentialData<R, C, f32>
    for Held<R, C, L>
{
    #[inline(always)]
    fn as_slice(&self) -> &[f32] {
        &self.0
    }
}

impl<const R: usize, const C: usize, const L: usize> RowMajorSequentialDataMut<R, C, f32>
    for Held<R, C, L>
{
    #[inline(always)]
    fn as_mut_slice(&mut self) -> &mut [f32] {
        &mut self.0
    }
}

impl<const R: usize, const C: usize, const L: usize> Index<usize> for Held<R, C, L> {
    type Output = f32;

    #[inline(always)]
    fn index(&self, at: usize) -> &f32 {
        &self.0[at]
    }
}

impl<const R: usize, const C: usize, const L: usize> IndexMut<usize> for Held<R, C, L> {
    #[inline(always)]
    fn index_mut(&mut self, at: usize) -> &mut f32 {
        &mut self.0[at]
    }
}

impl<const R: usize, const C: usize, const L: usize> Matrix<R, C, f32> for Held<R, C, L> {}
impl<const R: usize, const C: usize, const L: usize> MatrixMut<R, C, f32> for Held<R, C, L> {}

impl<const R: usize, const C: usize, const L: usize> AsMatrix<R, C, f32> for Held<R, C, L> {
    type Target = Self;

    #[inline(always)]
    fn as_matrix(&self) -> &Self {
        self
    }
}

impl<const R: usize, const C: usize, const L: usize> AsMatrixMut<R, C, f32> for Held<R, C, L> {
    type TargetMut = Self;

    #[inline(always)]
    fn as_matrix_mut(&mut self) -> &mut Self {
        self
    }
}

macro_rules! vector {
    ($($name:ident)*) => { $(impl<const N: usize> $name<N, f32> for Held<N, 1, N> {})* };
}

macro_rules! square {
    ($($name:ident)*) => { $(impl<const N: usize, const L: usize> $name<N, f32> for Held<N, N, L> {})* };
}

macro_rules! oblong {
    ($($name:ident)*) => {
        $(impl<const R: usize, const C: usize, const L: usize> $name<R, C, f32> for Held<R, C, L> {})*
    };
}

vector!(StateVector StateVectorMut PredictedStateEstimateVector);
vector!(MeasurementVector MeasurementVectorMut InnovationVector);
square!(StateTransitionMatrix StateTransitionMatrixMut EstimateCovarianceMatrix);
square!(DirectProcessNoiseCovarianceMatrix DirectProcessNoiseCovarianceMatrixMut);
square!(TemporaryStateMatrix MeasurementNoiseCovarianceMatrix InnovationCovarianceMatrix);
square!(TemporaryResidualCovarianceInvertedMatrix TemporaryKHPMatrix);
oblong!(ObservationMatrix ObservationMatrixMut KalmanGainMatrix TemporaryHPMatrix TemporaryPHTMatrix);

//! A lent slice seen as a matrix of R rows and C columns. The slice may be longer than the matrix.

use crate::kalman::*;
use crate::matrix::*;
use core::ops::{Index, IndexMut};

pub struct Lent<'a, const R: usize, const C: usize>(pub &'a mut [f32]);

impl<const R: usize, const C: usize> RowMajorSequentialData<R, C, f32> for Lent<'_, R, C> {
    fn as_slice(&self) -> &[f32] {
        self.0
    }
}

impl<const R: usize, const C: usize> RowMajorSequentialDataMut<R, C, f32> for Lent<'_, R, C> {
    fn as_mut_slice(&mut self) -> &mut [f32] {
        self.0
    }
}

impl<const R: usize, const C: usize> Index<usize> for Lent<'_, R, C> {
    type Output = f32;

    fn index(&self, at: usize) -> &f32 {
        &self.0[at]
    }
}

impl<const R: usize, const C: usize> IndexMut<usize> for Lent<'_, R, C> {
    fn index_mut(&mut self, at: usize) -> &mut f32 {
        &mut self.0[at]
    }
}

impl<const R: usize, const C: usize> Matrix<R, C, f32> for Lent<'_, R, C> {}
impl<const R: usize, const C: usize> MatrixMut<R, C, f32> for Lent<'_, R, C> {}

impl<const R: usize, const C: usize> AsMatrix<R, C, f32> for Lent<'_, R, C> {
    type Target = Self;

    fn as_matrix(&self) -> &Self {
        self
    }
}

impl<const R: usize, const C: usize> AsMatrixMut<R, C, f32> for Lent<'_, R, C> {
    type TargetMut = Self;

    fn as_matrix_mut(&mut self) -> &mut Self {
        self
    }
}

macro_rules! vector {
    ($($name:ident)*) => { $(impl<const N: usize> $name<N, f32> for Lent<'_, N, 1> {})* };
}

macro_rules! square {
    ($($name:ident)*) => { $(impl<const N: usize> $name<N, f32> for Lent<'_, N, N> {})* };
}

macro_rules! oblong {
    ($($name:ident)*) => {
        $(impl<const R: usize, const C: usize> $name<R, C, f32> for Lent<'_, R, C> {})*
    };
}

vector!(StateVector StateVectorMut PredictedStateEstimateVector);
vector!(MeasurementVector MeasurementVectorMut InnovationVector);
square!(StateTransitionMatrix StateTransitionMatrixMut EstimateCovarianceMatrix);
square!(DirectProcessNoiseCovarianceMatrix DirectProcessNoiseCovarianceMatrixMut);
square!(TemporaryStateMatrix MeasurementNoiseCovarianceMatrix InnovationCovarianceMatrix);
square!(TemporaryResidualCovarianceInvertedMatrix TemporaryKHPMatrix);
oblong!(ObservationMatrix ObservationMatrixMut KalmanGainMatrix TemporaryHPMatrix TemporaryPHTMatrix);

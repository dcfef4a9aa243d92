//! The traits that the two `regular.rs` files name: which matrix has which shape, and the accessors.

use crate::matrix::{AsMatrix, AsMatrixMut};

#[path = "../../target/oracle/files/kalman/regular.rs"]
pub mod regular;

macro_rules! shapes {
    ($($name:ident<$($n:ident),*>: $above:ident<$r:tt, $c:tt>;)*) => {
        $(pub trait $name<$(const $n: usize,)* T>: $above<$r, $c, T> {})*
    };
}

shapes! {
    StateVector<N>: AsMatrix<N, 1>;
    StateVectorMut<N>: AsMatrixMut<N, 1>;
    StateTransitionMatrix<N>: AsMatrix<N, N>;
    StateTransitionMatrixMut<N>: AsMatrixMut<N, N>;
    EstimateCovarianceMatrix<N>: AsMatrixMut<N, N>;
    DirectProcessNoiseCovarianceMatrix<N>: AsMatrix<N, N>;
    DirectProcessNoiseCovarianceMatrixMut<N>: AsMatrixMut<N, N>;
    PredictedStateEstimateVector<N>: AsMatrixMut<N, 1>;
    TemporaryStateMatrix<N>: AsMatrixMut<N, N>;
    MeasurementVector<M>: AsMatrix<M, 1>;
    MeasurementVectorMut<M>: AsMatrixMut<M, 1>;
    ObservationMatrix<M, N>: AsMatrix<M, N>;
    ObservationMatrixMut<M, N>: AsMatrixMut<M, N>;
    MeasurementNoiseCovarianceMatrix<M>: AsMatrixMut<M, M>;
    InnovationVector<M>: AsMatrixMut<M, 1>;
    InnovationCovarianceMatrix<M>: AsMatrixMut<M, M>;
    KalmanGainMatrix<N, M>: AsMatrixMut<N, M>;
    TemporaryResidualCovarianceInvertedMatrix<M>: AsMatrixMut<M, M>;
    TemporaryHPMatrix<M, N>: AsMatrixMut<M, N>;
    TemporaryPHTMatrix<N, M>: AsMatrixMut<N, M>;
    TemporaryKHPMatrix<N>: AsMatrixMut<N, N>;
}

pub trait KalmanFilterNumStates<const N: usize> {}
pub trait KalmanFilterNumObservations<const M: usize> {}

macro_rules! accessors {
    ($($name:ident<$($n:ident),*> $kind:ident $get:ident;)*) => {
        $(pub trait $name<$(const $n: usize,)* T> {
            type $kind;
            fn $get(&self) -> &Self::$kind;
        })*
    };
}

macro_rules! accessors_mut {
    ($($name:ident<$($n:ident),*> $kind:ident $get:ident;)*) => {
        $(pub trait $name<$(const $n: usize,)* T> {
            type $kind;
            fn $get(&mut self) -> &mut Self::$kind;
        })*
    };
}

accessors! {
    KalmanFilterStateVector<N> StateVector state_vector;
    KalmanFilterStateTransition<N> StateTransitionMatrix state_transition;
    KalmanFilterEstimateCovariance<N> EstimateCovarianceMatrix estimate_covariance;
    KalmanFilterMeasurementVector<M> MeasurementVector measurement_vector;
    KalmanFilterObservationTransformation<N, M> ObservationTransformationMatrix observation_matrix;
    KalmanFilterMeasurementNoiseCovariance<M> MeasurementNoiseCovarianceMatrix measurement_noise_covariance;
}

accessors_mut! {
    KalmanFilterStateVectorMut<N> StateVectorMut state_vector_mut;
    KalmanFilterStateTransitionMut<N> StateTransitionMatrixMut state_transition_mut;
    KalmanFilterEstimateCovarianceMut<N> EstimateCovarianceMatrixMut estimate_covariance_mut;
    KalmanFilterObservationVectorMut<M> MeasurementVectorMut measurement_vector_mut;
    KalmanFilterObservationTransformationMut<N, M> ObservationTransformationMatrixMut observation_matrix_mut;
    KalmanFilterMeasurementNoiseCovarianceMut<M> MeasurementNoiseCovarianceMatrixMut measurement_noise_covariance_mut;
}

pub trait KalmanFilterPredict<const N: usize, T> {
    fn predict(&mut self);
}

pub trait KalmanFilterUpdate<const N: usize, T> {
    fn correct_with<Seen, Fix>(&mut self, measurement: &mut Seen, fix: Fix)
    where
        Seen: KalmanFilterObservationCorrectFilter<N, T>,
        Fix: FnMut(&mut [T]);
}

pub trait KalmanFilterApplyControl<const N: usize, T> {
    fn control<I>(&mut self, control: &mut I)
    where
        I: KalmanFilterControlApplyToFilter<N, T>;
}

pub trait KalmanFilterControlApplyToFilter<const N: usize, T> {
    fn apply_to<X, P>(&mut self, x: &mut X, p: &mut P)
    where
        X: StateVectorMut<N, T>,
        P: EstimateCovarianceMatrix<N, T>;
}

pub trait KalmanFilterObservationCorrectFilter<const N: usize, T> {
    fn correct<X, P>(&mut self, x: &mut X, p: &mut P)
    where
        X: StateVectorMut<N, T>,
        P: EstimateCovarianceMatrix<N, T>,
    {
        self.correct_with(x, p, |_| {})
    }

    fn correct_with<X, P, Fix>(&mut self, x: &mut X, p: &mut P, fix: Fix)
    where
        X: StateVectorMut<N, T>,
        P: EstimateCovarianceMatrix<N, T>,
        Fix: FnMut(&mut [T]);
}

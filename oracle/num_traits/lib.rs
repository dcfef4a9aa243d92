//! Stand-in for the crate `num_traits`: only what the five files ask of it for f32 and f64.

pub trait Zero {
    fn zero() -> Self;
}

pub trait One {
    fn one() -> Self;
}

pub trait FromPrimitive {}

macro_rules! float {
    ($t:ty) => {
        impl Zero for $t {
            fn zero() -> Self {
                0.0
            }
        }
        impl One for $t {
            fn one() -> Self {
                1.0
            }
        }
        impl FromPrimitive for $t {}
    };
}

float!(f32);
float!(f64);

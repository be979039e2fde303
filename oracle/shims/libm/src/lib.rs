//! Stands in for the crate `libm` that quiver uses.
//!
//! A curve number (a sine, a hyperbolic tangent, a power) is the host's to compute, so here a test hands it in.
//! What IEEE 754 settles to the bit (square root, absolute value, floor, rounding, remainder) is std's.
//! What no tick of the ported effects may ask for panics, so that a wrong turn can't pass unseen.

use core::marker::PhantomData;

pub struct Libm<T>(PhantomData<T>);

#[cfg(feature = "script")]
pub mod script;
#[cfg(feature = "script")]
use script::{next_sine, next_tangent, next_tanh};

#[cfg(not(feature = "script"))]
pub mod timing;
#[cfg(not(feature = "script"))]
use timing::{next_sine, next_tanh};

/// Functions of which the ported effects' ticks never want a result.
macro_rules! not_handed_in {
    ($($name:ident($($argument:ident),*)),* $(,)?) => {$(
        #[cold]
        pub fn $name($($argument: f64),*) -> f64 {
            panic!(concat!("libm: ", stringify!($name), " of {:?} was asked, and no one hands it in"), [$($argument),*])
        }
    )*};
}

impl Libm<f64> {
    #[inline(always)]
    pub fn sin(x: f64) -> f64 {
        next_sine(x)
    }

    // The tape delay's, where it saturates.
    #[inline(always)]
    pub fn tanh(x: f64) -> f64 {
        next_tanh(x)
    }

    // The phaser's, where a side works its coefficient out. For timing it is planted, so that no one asks.
    #[cfg(feature = "script")]
    pub fn tan(x: f64) -> f64 {
        next_tangent(x)
    }

    #[cfg(not(feature = "script"))]
    not_handed_in!(tan(x));

    // The delay's start asks for it (`env_coef`); the host's coefficient then takes its place.
    pub fn exp(x: f64) -> f64 {
        x.exp()
    }

    pub fn sqrt(x: f64) -> f64 {
        x.sqrt()
    }

    #[inline(always)]
    pub fn fabs(x: f64) -> f64 {
        x.abs()
    }

    pub fn floor(x: f64) -> f64 {
        x.floor()
    }

    // Half away from zero, as C's `round`.
    pub fn round(x: f64) -> f64 {
        x.round()
    }

    pub fn fmod(x: f64, y: f64) -> f64 {
        x % y
    }

    not_handed_in!(pow(x, y), cos(x), asin(x), exp2(x), log2(x), log10(x));
}

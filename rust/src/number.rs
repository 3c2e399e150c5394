//! The number kit. Plain values cross, so each call is safe for every argument.

use crate::raw;

/// The `f32` nearest to `x`, a tie to the even one.
pub fn narrow(x: f64) -> f32 {
    unsafe { raw::tj_narrow(x) }
}

/// The square root of `x`, rounded once to the nearest `f32`; NaN below zero.
pub fn sqrt32(x: f32) -> f32 {
    unsafe { raw::tj_sqrt32(x) }
}

/// The square root of `x`, rounded once to the nearest `f64`; NaN below zero.
pub fn sqrt64(x: f64) -> f64 {
    unsafe { raw::tj_sqrt64(x) }
}

/// `narrow(sqrt64(x))`, in less time.
pub fn sqrt64_narrowed(x: f64) -> f32 {
    unsafe { raw::tj_sqrt64_narrowed(x) }
}

/// The absolute value of `x`.
pub fn abs32(x: f32) -> f32 {
    unsafe { raw::tj_abs32(x) }
}

/// The whole number nearest to `x`, a half away from zero.
pub fn round32(x: f32) -> f32 {
    unsafe { raw::tj_round32(x) }
}

//! The float functions that everything rests on. They take the place of the platform's, whose last
//! bits differ: the same answer on every machine.
//!
//! ```
//! use shackletongue::float;
//!
//! assert_eq!(float::sqrt(2.0), 2.0_f32.sqrt());
//! assert_eq!(float::pow(2.0, 10.0), 1024.0);
//! assert!(float::tan(9.0).is_nan());
//! ```

use crate::raw;

/// The f32 nearest to x, ties to even.
#[must_use]
pub fn narrow(x: f64) -> f32 {
    raw::narrow(x)
}

/// The square root, rounded as IEEE 754 asks.
#[must_use]
pub fn sqrt(x: f32) -> f32 {
    raw::sqrt(x)
}

/// b to the power of y; a NaN for a base below 0.
#[must_use]
pub fn pow(b: f32, y: f32) -> f32 {
    raw::pow(b, y)
}

/// Sine and cosine; NaNs beyond 8 in magnitude.
#[must_use]
pub fn sin_cos(t: f32) -> (f32, f32) {
    let (mut sin, mut cos) = (0.0, 0.0);
    raw::sin_cos(t, &mut sin, &mut cos);
    (sin, cos)
}

/// The tangent; a NaN beyond 8 in magnitude.
#[must_use]
pub fn tan(t: f32) -> f32 {
    raw::tan(t)
}

/// The angle of the point (x, y); a NaN where a component is not finite.
#[must_use]
pub fn atan2(y: f32, x: f32) -> f32 {
    raw::atan2(y, x)
}

//! The elementary functions, the same to the last bit on every reader.

use crate::raw;

/// The greatest whole number that is not above `x`. Zeros keep their sign; NaN and infinities come back as
/// they are.
///
/// ```
/// assert_eq!(peldozkar::floor(-0.5), -1.0);
/// ```
pub fn floor(x: f64) -> f64 {
    raw::pel_floor(x)
}

/// The least whole number that is not below `x`. Zeros keep their sign; NaN and infinities come back as they
/// are.
///
/// ```
/// assert_eq!(peldozkar::ceil(0.5), 1.0);
/// assert!(peldozkar::ceil(-0.5).is_sign_negative());
/// ```
pub fn ceil(x: f64) -> f64 {
    raw::pel_ceil(x)
}

/// `x` with its sign cleared.
///
/// ```
/// assert_eq!(peldozkar::fabs(-2.5), 2.5);
/// ```
pub fn fabs(x: f64) -> f64 {
    raw::pel_fabs(x)
}

/// The f64 nearest the exact square root. A zero and +infinity give themselves, anything below zero and NaN
/// give NaN.
///
/// ```
/// assert_eq!(peldozkar::sqrt(2.25), 1.5);
/// assert!(peldozkar::sqrt(-1.0).is_nan());
/// ```
pub fn sqrt(x: f64) -> f64 {
    raw::pel_sqrt(x)
}

/// The sine of `x` radians, for sizes up to 2^25, limits included; NaN beyond.
///
/// ```
/// assert!((peldozkar::sin(0.5) - 0.479425538604203).abs() < 1e-15);
/// assert!(peldozkar::sin(33554433.0).is_nan());
/// ```
pub fn sin(x: f64) -> f64 {
    raw::pel_sin(x)
}

/// The cosine of `x` radians, for sizes up to 2^25, limits included; NaN beyond.
///
/// ```
/// assert_eq!(peldozkar::cos(0.0), 1.0);
/// ```
pub fn cos(x: f64) -> f64 {
    raw::pel_cos(x)
}

/// e to the power `x`, for `x` from -700 to 0, limits included. 0 below -700, NaN above 0.
///
/// ```
/// assert_eq!(peldozkar::exp(0.0), 1.0);
/// assert_eq!(peldozkar::exp(-701.0), 0.0);
/// assert!(peldozkar::exp(1.0).is_nan());
/// ```
pub fn exp(x: f64) -> f64 {
    raw::pel_exp(x)
}

/// `v` to the power 0.4, for `v` from 0 to 29, limits included; NaN elsewhere. A zero of either sign gives +0.
///
/// ```
/// assert!((peldozkar::pow04(2.0) - 1.319507910772894).abs() < 1e-15);
/// assert!(peldozkar::pow04(30.0).is_nan());
/// ```
pub fn pow04(v: f64) -> f64 {
    raw::pel_pow04(v)
}

//! Second-order sections and pre-emphasis.

use crate::Error;
use crate::raw;
use crate::sys::bytes_mut;

/// What a second-order section lets through. Later versions may have more of them.
#[derive(Clone, Copy, Debug, PartialEq, Eq, Hash)]
#[non_exhaustive]
pub enum Response {
    /// What is below its centre.
    Lowpass,
    /// What is above it.
    Highpass,
    /// What is about it.
    Bandpass,
    /// All but what is about it.
    Notch,
}

impl Response {
    const fn code(self) -> u64 {
        match self {
            Self::Lowpass => raw::LOWPASS,
            Self::Highpass => raw::HIGHPASS,
            Self::Bandpass => raw::BANDPASS,
            Self::Notch => raw::NOTCH,
        }
    }
}

/// One second-order section of the RBJ Audio EQ Cookbook: b0, b1, b2, a1, a2 with a0 = 1.
///
/// # Errors
///
/// Refused, in this order:
/// - 2 (0, rate/2, centre) where the centre isn't between 0 and half of a finite rate; a bad rate is 2 too
/// - 5 (0, infinity, q) where the quality isn't finite and positive
///
/// Extreme numbers can give NaN coefficients, as the formulas do: they are accepted.
///
/// # Examples
///
/// ```
/// # fn main() -> Result<(), peldozkar::Error> {
/// use peldozkar::{Response, biquad_coefs};
///
/// let [b0, b1, b2, ..] = biquad_coefs(Response::Highpass, 2000.0, 0.5, 8000.0)?;
/// assert_eq!([b0, b1, b2], [0.25, -0.5, 0.25]);
/// # Ok(())
/// # }
/// ```
pub fn biquad_coefs(response: Response, centre: f64, q: f64, rate: f64) -> Result<[f64; 5], Error> {
    let mut section = [0.0; 5];
    raw::pel_biquad_coefs(response.code(), centre, q, rate, bytes_mut(&mut section)).taken()?;
    Ok(section)
}

/// Fills `out` with a Butterworth low-pass or high-pass of order 2 to 8 as sections like those of [`biquad_coefs`]: one
/// for each two poles, that of the lowest quality first, and last, where the order is odd, one of first order, whose b2
/// and a2 are 0. So there are `order.div_ceil(2)` of them.
///
/// # Errors
///
/// Refused, in this order, with `out` as it came:
/// - 7 a band-pass or a notch
/// - 6 an order below 2 or above 8
/// - 8 `out` isn't that many sections: expected and given in numbers, five a section
/// - 2 (0, rate/2, cutoff) as [`biquad_coefs`]
///
/// Extreme numbers can give NaN coefficients, as of a biquad: they are accepted.
///
/// # Examples
///
/// ```
/// # fn main() -> Result<(), peldozkar::Error> {
/// use peldozkar::{Response, butterworth_sos};
///
/// let mut sections = [[0.0; 5]; 2];
/// butterworth_sos(Response::Lowpass, 4, 1000.0, 8000.0, &mut sections)?;
/// for [b0, b1, b2, a1, a2] in sections {
///     // Each section's gain is 1 where the frequency is 0.
///     assert!(((b0 + b1 + b2) / (1.0 + a1 + a2) - 1.0).abs() < 1e-14);
/// }
///
/// // An odd order ends with a section of first order; that of a high-pass takes what doesn't change away.
/// butterworth_sos(Response::Highpass, 3, 1000.0, 8000.0, &mut sections)?;
/// let [b0, b1, b2, _, a2] = sections[1];
/// assert_eq!([b0 + b1, b2, a2], [0.0, 0.0, 0.0]);
/// # Ok(())
/// # }
/// ```
pub fn butterworth_sos(
    response: Response,
    order: u64,
    cutoff: f64,
    rate: f64,
    out: &mut [[f64; 5]],
) -> Result<(), Error> {
    let out = bytes_mut(out.as_flattened_mut());
    raw::pel_butterworth_sos(response.code(), order, cutoff, rate, out).taken()?;
    Ok(())
}

/// First-order pre-emphasis with the time constant `tau` in seconds: b0, b1, a1 with a0 = 1.
///
/// # Errors
///
/// Refused, in this order:
/// - 5 (0, 0.001, tau) where tau isn't above 0 and at most 0.001
/// - 1 (40000, infinity, rate) where the rate isn't finite and at least 40000
///
/// A rate above half of the largest f64 gives NaN coefficients: it is accepted.
///
/// # Examples
///
/// ```
/// # fn main() -> Result<(), peldozkar::Error> {
/// let [b0, b1, a1] = peldozkar::preemphasis_coefs(50e-6, 48000.0)?;
/// assert!(((b0 + b1) / (1.0 + a1) - 1.0).abs() < 1e-14);
/// # Ok(())
/// # }
/// ```
pub fn preemphasis_coefs(tau: f64, rate: f64) -> Result<[f64; 3], Error> {
    let mut coefficients = [0.0; 3];
    raw::pel_preemphasis_coefs(tau, rate, bytes_mut(&mut coefficients)).taken()?;
    Ok(coefficients)
}

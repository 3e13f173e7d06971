//! Half-band filters.

use crate::raw;
use crate::sys::bytes_mut;
use crate::{Design, Error};

/// Fills `out` with the taps of a half-band filter with Kaiser's window: every tap at an even distance from
/// the middle, but the middle itself, is 0, and the taps are mirror images to the bit.
///
/// # Errors
///
/// Refused, in this order, with `out` as it came:
/// - 6 the taps aren't 3 mod 4, or are more than 2^24
/// - 4 a beta that isn't finite and not negative
/// - 16 a series that the window takes isn't settled, as [`lowpass`](crate::lowpass): beta is above about 714
/// - 10 a divisor that is 0 or not finite
///
/// # Examples
///
/// ```
/// # fn main() -> Result<(), peldozkar::Error> {
/// use peldozkar::{halfband, halfband_len, kaiser_beta};
///
/// let mut taps = [0.0; 295];
/// assert_eq!(halfband_len(100.0, 60.0, 8000.0)?, 295);
/// halfband(kaiser_beta(60.0), &mut taps)?;
/// assert_eq!(taps[0], taps[294]);
/// assert_eq!(taps[1], 0.0);
/// # Ok(())
/// # }
/// ```
pub fn halfband(beta: f64, out: &mut [f64]) -> Result<Design, Error> {
    Design::of(raw::pel_halfband(beta, bytes_mut(out)))
}

/// The judgement of [`halfband`] for a number of taps, without a buffer.
///
/// ```
/// assert_eq!(peldozkar::halfband_new(5.0, 7).map(|design| design.taps), Ok(7));
/// assert_eq!(peldozkar::halfband_new(5.0, 5).unwrap_err().number(), 6);
/// assert_eq!(peldozkar::halfband_new(1000.0, 7).unwrap_err().number(), 16);
/// ```
pub fn halfband_new(beta: f64, taps: u64) -> Result<Design, Error> {
    Design::of(raw::pel_halfband_new(beta, taps))
}

/// The taps that a half-band filter needs: those of [`kaiserord`](crate::kaiserord), and 2 more where that
/// leaves 1 mod 4. Mind the order of the arguments.
///
/// # Errors
///
/// Refused as [`kaiserord`](crate::kaiserord).
///
/// # Examples
///
/// ```
/// assert_eq!(peldozkar::halfband_len(100.0, 60.0, 8000.0), Ok(295));
/// ```
pub fn halfband_len(transition: f64, attenuation: f64, rate: f64) -> Result<u64, Error> {
    raw::pel_halfband_len(transition, attenuation, rate).counted()
}

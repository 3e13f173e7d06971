//! Coefficients as Q15, Q14 and f32 numbers.

use crate::Error;
use crate::raw;
use crate::sys::{bytes, bytes_mut};

/// floor(32768 x + 0.5), held to -32768 and 32767; 0 for a NaN.
///
/// ```
/// use peldozkar::q15_from_f64;
///
/// assert_eq!(q15_from_f64(0.5), 16384);
/// assert_eq!(q15_from_f64(1.0), 32767);
/// assert_eq!(q15_from_f64(f64::NAN), 0);
/// ```
pub fn q15_from_f64(x: f64) -> i16 {
    raw::pel_q15_from_f64(x)
}

/// One tap as a Q15 number.
///
/// # Errors
///
/// Refused: 11 with the index 0 and (-limit, limit, tap) where the size of the tap is above the limit,
/// (1 - 1/32768) * 1.01, or it is a NaN.
///
/// # Examples
///
/// ```
/// use peldozkar::q15_tap;
///
/// assert_eq!(q15_tap(1.0), Ok(32767));
/// assert_eq!(q15_tap(1.01).unwrap_err().number(), 11);
/// ```
pub fn q15_tap(tap: f64) -> Result<i16, Error> {
    // The value is a whole number of 16 bits.
    Ok(raw::pel_q15_tap(tap).taken()?.value as i16)
}

/// One coefficient as a Q2.14 number, floor(16384 x + 0.5).
///
/// # Errors
///
/// Refused: 11 with the index 0 and (-2, 2 - 1/16384, x) where that floor isn't in -32768 to 32767, or for a
/// NaN; nothing is held to an end.
///
/// # Examples
///
/// ```
/// use peldozkar::q14_from_f64;
///
/// assert_eq!(q14_from_f64(-2.0), Ok(-32768));
/// assert_eq!(q14_from_f64(2.0).unwrap_err().number(), 11);
/// ```
pub fn q14_from_f64(x: f64) -> Result<i16, Error> {
    // The value is a whole number of 16 bits.
    Ok(raw::pel_q14_from_f64(x).taken()?.value as i16)
}

/// Converts taps to Q15 numbers, each as [`q15_tap`].
///
/// # Errors
///
/// Refused, in this order:
/// - 8 `out` isn't as long as `taps`; it is as it came
/// - 11 the first tap that isn't taken, with its index; the numbers before it are kept, and the rest of `out`
///   is as it came
///
/// # Examples
///
/// ```
/// # fn main() -> Result<(), peldozkar::Error> {
/// use peldozkar::to_q15;
///
/// let mut numbers = [0; 3];
/// to_q15(&[0.25, 0.5, 0.25], &mut numbers)?;
/// assert_eq!(numbers, [8192, 16384, 8192]);
/// # Ok(())
/// # }
/// ```
pub fn to_q15(taps: &[f64], out: &mut [i16]) -> Result<(), Error> {
    raw::pel_to_q15(bytes(taps), bytes_mut(out)).taken()?;
    Ok(())
}

/// Converts sections to Q14 numbers, each as [`q14_from_f64`].
///
/// # Errors
///
/// Refused, in this order:
/// - 8 `out` isn't as long as `sections`; expected and given in numbers, five a section; it is as it came
/// - 11 the first number that isn't taken, with its index counted in numbers from the first of all; those
///   before it are kept, and the rest of `out` is as it came
///
/// # Examples
///
/// ```
/// # fn main() -> Result<(), peldozkar::Error> {
/// use peldozkar::to_q14;
///
/// let mut numbers = [[0; 5]];
/// to_q14(&[[0.25, -0.5, 0.25, -1.5, 0.75]], &mut numbers)?;
/// assert_eq!(numbers, [[4096, -8192, 4096, -24576, 12288]]);
/// # Ok(())
/// # }
/// ```
pub fn to_q14(sections: &[[f64; 5]], out: &mut [[i16; 5]]) -> Result<(), Error> {
    let (source, out) = (sections.as_flattened(), out.as_flattened_mut());
    raw::pel_to_q14(bytes(source), bytes_mut(out)).taken()?;
    Ok(())
}

/// Converts coefficients to the nearest f32, ties to even; infinity beyond the largest, and a NaN for a NaN.
///
/// # Errors
///
/// Refused: 8 `out` isn't as long as `coefficients`; it is as it came.
///
/// # Examples
///
/// ```
/// # fn main() -> Result<(), peldozkar::Error> {
/// use peldozkar::to_f32;
///
/// let mut numbers = [0.0; 2];
/// to_f32(&[0.1, 1e300], &mut numbers)?;
/// assert_eq!(numbers, [0.1, f32::INFINITY]);
/// # Ok(())
/// # }
/// ```
pub fn to_f32(coefficients: &[f64], out: &mut [f32]) -> Result<(), Error> {
    raw::pel_to_f32(bytes(coefficients), bytes_mut(out)).taken()?;
    Ok(())
}

/// Converts sections as [`to_f32`] converts coefficients.
///
/// # Errors
///
/// Refused: 8 `out` isn't as long as `sections`; expected and given in numbers, five a section; it is as it
/// came.
///
/// # Examples
///
/// ```
/// # fn main() -> Result<(), peldozkar::Error> {
/// use peldozkar::to_f32_sos;
///
/// let mut numbers = [[0.0; 5]];
/// to_f32_sos(&[[0.1, 0.2, 0.1, -1.5, 0.75]], &mut numbers)?;
/// assert_eq!(numbers, [[0.1, 0.2, 0.1, -1.5, 0.75]]);
/// # Ok(())
/// # }
/// ```
pub fn to_f32_sos(sections: &[[f64; 5]], out: &mut [[f32; 5]]) -> Result<(), Error> {
    let (source, out) = (sections.as_flattened(), out.as_flattened_mut());
    raw::pel_to_f32_sos(bytes(source), bytes_mut(out)).taken()?;
    Ok(())
}

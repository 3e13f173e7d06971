//! Kaiser's formulas: the series, beta, the number of taps; and the delay of a filter, in half samples.

use crate::Error;
use crate::raw;

/// A power series' sum, how many of its terms were taken, and whether it is settled.
#[derive(Clone, Copy, Debug, PartialEq)]
pub struct Series {
    /// The sum; where it isn't settled, what was reached.
    pub sum: f64,
    /// The terms taken, 1 to 500.
    pub terms: u64,
    /// Whether the sum is finite and a term below 1e-17 of it was met, the 500th included. Where this is false,
    /// Kaiser's window with such a beta is refused with 16. Every size up to 713 is settled, which is proved; the last
    /// one found is 713.98690854396818.
    pub settled: bool,
}

/// The modified Bessel function of order 0 by its power series, which stops after the first term below 1e-17
/// of the sum, or after 500.
///
/// ```
/// use peldozkar::{Series, bessel_i0};
///
/// assert_eq!(bessel_i0(0.0), Series { sum: 1.0, terms: 1, settled: true });
/// assert!(bessel_i0(713.0).settled);
///
/// // The sum overflows, and what was reached is told all the same.
/// assert_eq!(bessel_i0(750.0), Series { sum: f64::INFINITY, terms: 269, settled: false });
/// ```
pub fn bessel_i0(x: f64) -> Series {
    let report = raw::pel_bessel_i0(x);
    Series {
        sum: report.value,
        terms: report.count,
        settled: report.number == raw::ACCEPTED,
    }
}

/// The shape of Kaiser's window for an attenuation in dB: 0.1102 (a - 8.7) above 50, 0.5842 (a - 21)^0.4 +
/// 0.07886 (a - 21) from 21 to 50, else 0, also for NaN.
///
/// ```
/// assert_eq!(peldozkar::kaiser_beta(60.0), 0.1102 * (60.0 - 8.7));
/// assert_eq!(peldozkar::kaiser_beta(f64::NAN), 0.0);
/// ```
pub fn kaiser_beta(attenuation: f64) -> f64 {
    raw::pel_kaiser_beta(attenuation)
}

/// The taps, an odd number, and beta for a ripple in dB and a transition at a rate.
///
/// # Errors
///
/// Refused: 4 a ripple whose size isn't finite or is below 8; 3 where 2 transition / rate isn't finite and
/// positive; 3 with (0, rate, transition) where more than 2^24 taps are estimated.
///
/// # Examples
///
/// ```
/// # fn main() -> Result<(), peldozkar::Error> {
/// let (taps, beta) = peldozkar::kaiserord(60.0, 100.0, 8000.0)?;
/// assert_eq!(taps, 293);
/// assert_eq!(beta, peldozkar::kaiser_beta(60.0));
/// # Ok(())
/// # }
/// ```
pub fn kaiserord(ripple: f64, transition: f64, rate: f64) -> Result<(u64, f64), Error> {
    let report = raw::pel_kaiserord(ripple, transition, rate).taken()?;
    Ok((report.count, report.value))
}

/// Half samples, two of which are a sample: the unit of a [`delay`], as a type so that it isn't taken for samples.
#[derive(Clone, Copy, Debug, Default, PartialEq, Eq, PartialOrd, Ord, Hash)]
pub struct HalfSamples(pub u64);

/// Half samples that a linear-phase filter delays by: taps - 1, so that the half of an even length is kept, for
/// every count.
///
/// # Errors
///
/// Refused: 6 no taps.
///
/// # Examples
///
/// ```
/// # fn main() -> Result<(), peldozkar::Error> {
/// use peldozkar::{HalfSamples, delay};
///
/// assert_eq!(delay(31)?, HalfSamples(30)); // 15 samples
/// let HalfSamples(half_samples) = delay(128)?; // a channelizer's prototype is even
/// assert_eq!(half_samples, 127);
/// // What comes out at sample 1000 came in 63.5 samples before.
/// assert_eq!(1000.0 - half_samples as f64 / 2.0, 936.5);
/// assert!(delay(0).is_err());
/// # Ok(())
/// # }
/// ```
pub fn delay(taps: u64) -> Result<HalfSamples, Error> {
    raw::pel_delay(taps).counted().map(HalfSamples)
}

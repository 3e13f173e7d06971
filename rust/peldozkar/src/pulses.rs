//! The Gaussian pulse and the root-raised cosine.

use crate::raw::{self, Report};
use crate::sys::bytes_mut;
use crate::{Design, Error};

/// Fills `out` with the Gaussian pulse of GFSK and GMSK, `samples * span + 1` taps, divided by their sum: `bt`
/// is the bandwidth in symbol rates, `samples` those of a symbol, `span` the length in symbols.
///
/// # Errors
///
/// Refused, in this order, with `out` as it came:
/// - 5 (0.2, 1, bt)
/// - 6 (2, 8, span)
/// - 6 (2, (2^24 - 1)/span rounded down, samples)
/// - 8 `out` isn't that many taps
///
/// # Examples
///
/// ```
/// # fn main() -> Result<(), peldozkar::Error> {
/// let mut taps = [0.0; 33];
/// peldozkar::gaussian(0.5, 8, 4, &mut taps)?;
/// assert_eq!(taps[0], taps[32]);
/// # Ok(())
/// # }
/// ```
pub fn gaussian(bt: f64, samples: u64, span: u64, out: &mut [f64]) -> Result<Design, Error> {
    Design::of(raw::pel_gaussian(bt, samples, span, bytes_mut(out)))
}

/// The judgement of [`gaussian`] without a buffer.
///
/// ```
/// assert_eq!(peldozkar::gaussian_new(0.5, 8, 4).map(|design| design.taps), Ok(33));
/// ```
pub fn gaussian_new(bt: f64, samples: u64, span: u64) -> Result<Design, Error> {
    Design::of(raw::pel_gaussian_new(bt, samples, span))
}

/// The figures of an accepted root-raised-cosine pulse.
#[derive(Clone, Copy, Debug, PartialEq)]
pub struct Rrc {
    /// The number of taps.
    pub taps: u64,
    /// What the taps were multiplied by, so that their energy is 1.
    pub factor: f64,
}

impl Rrc {
    pub(crate) fn of(report: Report) -> Result<Self, Error> {
        let report = report.taken()?;
        Ok(Self {
            taps: report.count,
            factor: report.value,
        })
    }
}

/// Fills `out` with the root-raised-cosine pulse, `samples * span + 1` taps, times the factor that makes their
/// energy 1: `samples` are those of a symbol, `span` is the length in symbols.
///
/// # Errors
///
/// Refused, in this order, with `out` as it came:
/// - 5 (0.05, 1, rolloff)
/// - 6 (2, 1024, samples)
/// - 6 (4, 32, span)
/// - 8 `out` isn't that many taps
///
/// # Examples
///
/// ```
/// # fn main() -> Result<(), peldozkar::Error> {
/// let mut taps = [0.0; 65];
/// peldozkar::rrc(0.5, 8, 8, &mut taps)?;
/// let energy: f64 = taps.iter().map(|tap| tap * tap).sum();
/// assert!((energy - 1.0).abs() < 1e-14);
/// # Ok(())
/// # }
/// ```
pub fn rrc(rolloff: f64, samples: u64, span: u64, out: &mut [f64]) -> Result<Rrc, Error> {
    Rrc::of(raw::pel_rrc(rolloff, samples, span, bytes_mut(out)))
}

/// The judgement of [`rrc`] without a buffer.
///
/// ```
/// assert_eq!(peldozkar::rrc_new(0.5, 8, 8).map(|pulse| pulse.taps), Ok(65));
/// ```
pub fn rrc_new(rolloff: f64, samples: u64, span: u64) -> Result<Rrc, Error> {
    Rrc::of(raw::pel_rrc_new(rolloff, samples, span))
}

/// How many taps a root-raised-cosine pulse has: `span * samples + 1`.
///
/// # Errors
///
/// Refused: 6, 6 as [`rrc`].
///
/// # Examples
///
/// ```
/// assert_eq!(peldozkar::rrc_len(2, 4), Ok(9));
/// ```
pub fn rrc_len(samples: u64, span: u64) -> Result<u64, Error> {
    raw::pel_rrc_len(samples, span).counted()
}

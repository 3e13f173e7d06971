//! Windows as f32 and Q15 samples, and what a window does.

use crate::Error;
use crate::raw;
use crate::sys::{bytes, bytes_mut};

/// Where a window's period ends.
#[derive(Clone, Copy, Debug, PartialEq, Eq, Hash)]
pub enum Symmetry {
    /// One sample past the last one, as a Fourier transform has it.
    Periodic,
    /// At the last sample, as a filter has it.
    Symmetric,
}

impl Symmetry {
    const fn code(self) -> u64 {
        match self {
            Self::Periodic => raw::PERIODIC,
            Self::Symmetric => raw::SYMMETRIC,
        }
    }
}

mod sealed {
    use crate::raw::{self, Report};
    use crate::sys::Plain;

    /// The windows of a format.
    pub trait Windows: Plain {
        fn hann(symmetry: u64, out: &mut [u8]) -> Report;
        fn blackman_harris(symmetry: u64, out: &mut [u8]) -> Report;
        fn kaiser(beta: f64, symmetry: u64, out: &mut [u8]) -> Report;
    }

    impl Windows for f32 {
        fn hann(symmetry: u64, out: &mut [u8]) -> Report {
            raw::pel_hann_f32(symmetry, out)
        }

        fn blackman_harris(symmetry: u64, out: &mut [u8]) -> Report {
            raw::pel_blackman_harris_f32(symmetry, out)
        }

        fn kaiser(beta: f64, symmetry: u64, out: &mut [u8]) -> Report {
            raw::pel_kaiser_f32(beta, symmetry, out)
        }
    }

    impl Windows for i16 {
        fn hann(symmetry: u64, out: &mut [u8]) -> Report {
            raw::pel_hann_q15(symmetry, out)
        }

        fn blackman_harris(symmetry: u64, out: &mut [u8]) -> Report {
            raw::pel_blackman_harris_q15(symmetry, out)
        }

        fn kaiser(beta: f64, symmetry: u64, out: &mut [u8]) -> Report {
            raw::pel_kaiser_q15(beta, symmetry, out)
        }
    }
}

/// A window's sample: f32, or i16 as a Q15 number, in which 1 is 32767. No other type can be one.
pub trait Sample: sealed::Windows {}

impl Sample for f32 {}
impl Sample for i16 {}

/// Fills `out` with as many samples of Hann's window; it can't be refused. A symmetric window of one sample is
/// 1, a periodic one is 0.
///
/// ```
/// use peldozkar::{Symmetry, hann};
///
/// let mut samples = [0.0_f32; 4];
/// hann(Symmetry::Periodic, &mut samples);
/// assert_eq!(samples, [0.0, 0.5, 1.0, 0.5]);
///
/// let mut numbers = [0_i16; 3];
/// hann(Symmetry::Symmetric, &mut numbers);
/// assert_eq!(numbers, [0, 32767, 0]);
/// ```
pub fn hann<S: Sample>(symmetry: Symmetry, out: &mut [S]) {
    // Whole samples and a known code are always taken.
    let _ = S::hann(symmetry.code(), bytes_mut(out));
}

/// Fills `out` with as many samples of Blackman and Harris's window; it can't be refused.
///
/// ```
/// use peldozkar::{Symmetry, blackman_harris};
///
/// let mut samples = [0.0_f32; 5];
/// blackman_harris(Symmetry::Symmetric, &mut samples);
/// assert_eq!(samples[2], 1.0);
/// assert!((samples[0] - 6e-5).abs() < 1e-9);
/// ```
pub fn blackman_harris<S: Sample>(symmetry: Symmetry, out: &mut [S]) {
    // Whole samples and a known code are always taken.
    let _ = S::blackman_harris(symmetry.code(), bytes_mut(out));
}

/// Fills `out` with as many samples of Kaiser's window.
///
/// # Errors
///
/// Refused, in this order, with `out` as it came:
/// - 4 a beta that isn't finite and not negative, also where `out` is empty
/// - 16 a series that the window takes isn't settled, that at beta or one at a sample: beta is above about 714. An
///   empty `out` and a symmetric window of one sample take no series
///
/// # Examples
///
/// ```
/// # fn main() -> Result<(), peldozkar::Error> {
/// use peldozkar::{Symmetry, kaiser};
///
/// let mut samples = [0.0_f32; 3];
/// kaiser(0.0, Symmetry::Symmetric, &mut samples)?;
/// assert_eq!(samples, [1.0; 3]);
/// assert_eq!(kaiser(-1.0, Symmetry::Symmetric, &mut samples).unwrap_err().number(), 4);
/// assert_eq!(kaiser(1000.0, Symmetry::Symmetric, &mut samples).unwrap_err().number(), 16);
/// assert_eq!(samples, [1.0; 3]);
/// # Ok(())
/// # }
/// ```
pub fn kaiser<S: Sample>(beta: f64, symmetry: Symmetry, out: &mut [S]) -> Result<(), Error> {
    S::kaiser(beta, symmetry.code(), bytes_mut(out)).taken()?;
    Ok(())
}

/// What a window does to a signal.
#[derive(Clone, Copy, Debug, PartialEq)]
pub struct Gain {
    /// The coherent gain: the mean of the samples.
    pub coherent: f64,
    /// The noise-equivalent bandwidth in bins: n sum(w^2) / sum(w)^2.
    pub bandwidth: f64,
}

/// The coherent gain and the noise-equivalent bandwidth of a window. Both are 0 for no samples; samples that
/// sum to 0 have an infinite or NaN bandwidth.
///
/// ```
/// use peldozkar::{Gain, window_gain};
///
/// assert_eq!(window_gain(&[0.0, 0.5, 1.0, 0.5]), Gain { coherent: 0.5, bandwidth: 1.5 });
/// ```
pub fn window_gain(samples: &[f32]) -> Gain {
    let report = raw::pel_window_gain(bytes(samples));
    Gain {
        coherent: report.gain,
        bandwidth: report.bandwidth,
    }
}

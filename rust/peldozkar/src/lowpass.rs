//! Low-pass filters, by their taps or by what they have to do.

use crate::raw::{self, Report};
use crate::sys::bytes_mut;
use crate::{Cosines, Error};

/// The window of a low-pass. Later versions may have more of them.
#[derive(Clone, Copy, Debug, PartialEq)]
#[non_exhaustive]
pub enum Window {
    /// Hann's.
    Hann,
    /// Hamming's.
    Hamming,
    /// Blackman's.
    Blackman,
    /// Kaiser's, with its beta.
    Kaiser(f64),
    /// A customer's own, loaded. [`Lowpass`](crate::Lowpass) has no knob for it.
    Cosines(Cosines),
}

/// A code that no window has: an export refuses it with 7, before anything else.
const NO_CODE: u64 = u64::MAX;

impl Window {
    /// The code, which a loaded window hasn't, and the beta, which counts for Kaiser's window alone.
    pub(crate) const fn coded(self) -> (u64, f64) {
        match self {
            Self::Hann => (raw::HANN, 0.0),
            Self::Hamming => (raw::HAMMING, 0.0),
            Self::Blackman => (raw::BLACKMAN, 0.0),
            Self::Kaiser(beta) => (raw::KAISER, beta),
            Self::Cosines(_) => (NO_CODE, 0.0),
        }
    }
}

/// The figures of an accepted design.
#[derive(Clone, Copy, Debug, PartialEq)]
pub struct Design {
    /// The number of taps.
    pub taps: u64,
    /// What the taps were divided by, so that they add up to 1.
    pub divisor: f64,
}

impl Design {
    pub(crate) fn of(report: Report) -> Result<Self, Error> {
        let report = report.taken()?;
        Ok(Self {
            taps: report.count,
            divisor: report.value,
        })
    }
}

/// Fills `out` with the taps of a windowed-sinc low-pass, divided by their sum.
///
/// # Errors
///
/// Refused, in this order, with `out` as it came:
/// - 1 a rate that isn't finite and positive
/// - 2 (0, rate/2, cutoff) where cutoff/rate isn't between 0 and 1/2
/// - 6 no taps, or more than 2^24
/// - 4 a beta that isn't finite and not negative
/// - 16 a series that Kaiser's window takes isn't settled, that at beta or one at a tap: beta is above about 714. One
///   tap takes no series
/// - 10 a divisor that is 0 or not finite: too few taps for the window
///
/// A loaded window was checked when it was loaded, and has no refusal of its own here.
///
/// # Examples
///
/// ```
/// # fn main() -> Result<(), peldozkar::Error> {
/// use peldozkar::{Reason, Window, lowpass};
///
/// let mut taps = [0.0; 63];
/// let design = lowpass(1000.0, 8000.0, Window::Hamming, &mut taps)?;
/// assert_eq!(design.taps, 63);
/// assert!((taps.iter().sum::<f64>() - 1.0).abs() < 1e-14);
///
/// let error = lowpass(4000.0, 8000.0, Window::Hamming, &mut taps).unwrap_err();
/// assert_eq!(error.number(), 2);
///
/// // So large a beta is too much for the window's series; a smaller one is taken.
/// let error = lowpass(1000.0, 8000.0, Window::Kaiser(1000.0), &mut taps).unwrap_err();
/// assert_eq!(error.reason, Reason::Unsettled);
/// lowpass(1000.0, 8000.0, Window::Kaiser(713.0), &mut taps)?;
/// # Ok(())
/// # }
/// ```
pub fn lowpass(cutoff: f64, rate: f64, window: Window, out: &mut [f64]) -> Result<Design, Error> {
    let out = bytes_mut(out);
    Design::of(if let Window::Cosines(loaded) = window {
        raw::pel_lowpass_cosines(cutoff, rate, loaded.record(), out)
    } else {
        let (code, beta) = window.coded();
        raw::pel_lowpass(cutoff, rate, code, beta, out)
    })
}

/// The judgement of [`lowpass`] for a number of taps, without a buffer.
///
/// ```
/// # fn main() -> Result<(), peldozkar::Error> {
/// use peldozkar::{Window, lowpass_new};
///
/// assert_eq!(lowpass_new(0.25, 1.0, Window::Hann, 1)?.divisor, 0.5);
/// assert_eq!(lowpass_new(0.25, 1.0, Window::Hann, 2).unwrap_err().number(), 10);
/// assert_eq!(lowpass_new(0.25, 1.0, Window::Kaiser(1e4), 1)?.divisor, 0.5);
/// assert_eq!(lowpass_new(0.25, 1.0, Window::Kaiser(1e4), 2).unwrap_err().number(), 16);
/// # Ok(())
/// # }
/// ```
pub fn lowpass_new(cutoff: f64, rate: f64, window: Window, taps: u64) -> Result<Design, Error> {
    Design::of(if let Window::Cosines(loaded) = window {
        raw::pel_lowpass_cosines_new(cutoff, rate, loaded.record(), taps)
    } else {
        let (code, beta) = window.coded();
        raw::pel_lowpass_new(cutoff, rate, code, beta, taps)
    })
}

/// A low-pass by what it has to do; Kaiser's formulas find the taps and beta.
///
/// Its methods are refused, in this order:
/// - 1 a rate that isn't finite and positive
/// - 3 (0, rate/2, transition) where the transition isn't finite and positive
/// - 2 (0, rate/2 - transition/2, cutoff), each operation rounded, where the cutoff isn't above 0 and at most that
/// - 4, 3, 3 as [`kaiserord`](crate::kaiserord)
/// - 9 `max_taps` is below the taps needed
///
/// and then, but for [`num_taps`](Self::num_taps), which takes no series, as [`lowpass`], of which 2, 6 (16777217
/// taps), 16 (above about 6488 dB) and 10 can occur.
///
/// ```
/// # fn main() -> Result<(), peldozkar::Error> {
/// use peldozkar::Spec;
///
/// let spec = Spec { cutoff: 1000.0, transition: 100.0, attenuation: 60.0 };
/// let mut taps = [0.0; 293];
/// assert_eq!(spec.num_taps(8000.0, 1000)?, 293);
/// assert_eq!(spec.design(8000.0, 1000, &mut taps)?.taps, 293);
/// # Ok(())
/// # }
/// ```
#[derive(Clone, Copy, Debug, PartialEq)]
pub struct Spec {
    /// The middle of the transition.
    pub cutoff: f64,
    /// How wide it is.
    pub transition: f64,
    /// The attenuation beyond it in dB.
    pub attenuation: f64,
}

impl Spec {
    /// The number of taps needed at a rate, `max_taps` at most; never refused with 16.
    ///
    /// ```
    /// use peldozkar::{Reason, Spec};
    ///
    /// let spec = Spec { cutoff: 1000.0, transition: 100.0, attenuation: 60.0 };
    /// assert_eq!(spec.num_taps(8000.0, 293), Ok(293));
    /// assert_eq!(spec.num_taps(8000.0, 292).unwrap_err().reason, Reason::Cap);
    /// ```
    pub fn num_taps(&self, rate: f64, max_taps: u64) -> Result<u64, Error> {
        raw::pel_spec_num_taps(
            self.cutoff,
            self.transition,
            self.attenuation,
            rate,
            max_taps,
        )
        .counted()
    }

    /// The judgement of [`design`](Self::design), without a buffer.
    ///
    /// ```
    /// # fn main() -> Result<(), peldozkar::Error> {
    /// # use peldozkar::Spec;
    /// let spec = Spec { cutoff: 1000.0, transition: 100.0, attenuation: 60.0 };
    /// assert_eq!(spec.lowpass(8000.0, 1000)?.taps, 293);
    /// # Ok(())
    /// # }
    /// ```
    pub fn lowpass(&self, rate: f64, max_taps: u64) -> Result<Design, Error> {
        Design::of(raw::pel_spec_lowpass(
            self.cutoff,
            self.transition,
            self.attenuation,
            rate,
            max_taps,
        ))
    }

    /// Fills `out` with the taps.
    ///
    /// # Errors
    ///
    /// Refused besides, with `out` as it came: 8 where `out` isn't as many taps as are needed, after 9 and before what
    /// [`lowpass`] refuses.
    ///
    /// # Examples
    ///
    /// ```
    /// # fn main() -> Result<(), peldozkar::Error> {
    /// # use peldozkar::{Carried, Spec};
    /// let spec = Spec { cutoff: 1000.0, transition: 100.0, attenuation: 60.0 };
    /// let mut buffer = [0.0; 1000];
    /// let design = spec.design(8000.0, 1000, &mut buffer[..293])?;
    /// assert_eq!(design.taps, 293);
    ///
    /// let error = spec.design(8000.0, 1000, &mut buffer).unwrap_err();
    /// assert_eq!(error.carried, Carried::Length { expected: 293, given: 1000 });
    /// # Ok(())
    /// # }
    /// ```
    pub fn design(&self, rate: f64, max_taps: u64, out: &mut [f64]) -> Result<Design, Error> {
        Design::of(raw::pel_spec_design(
            self.cutoff,
            self.transition,
            self.attenuation,
            rate,
            max_taps,
            bytes_mut(out),
        ))
    }
}

//! A customer's own cosine window, loaded once and then a window of low-passes.

use crate::Error;
use crate::raw;
use crate::sys::bytes;

/// A cosine window of one to five coefficients: at tap i of n, with x = 2 PI i/(n - 1), it is
/// c0 - c1 cos(x) + c2 cos(2x) - c3 cos(3x) + c4 cos(4x). One tap has the window 1.
///
/// It is loaded, and its coefficients are checked then, once; designs with
/// [`Window::Cosines`](crate::Window::Cosines) take it as it is.
///
/// # Examples
///
/// ```
/// # fn main() -> Result<(), peldozkar::Error> {
/// use peldozkar::{Cosines, Reason, Window, lowpass};
///
/// let nuttall = Cosines::load(&[0.355768, 0.487396, 0.144232, 0.012604])?;
/// let mut taps = [0.0; 63];
/// lowpass(1000.0, 8000.0, Window::Cosines(nuttall), &mut taps)?;
/// assert!((taps.iter().sum::<f64>() - 1.0).abs() < 1e-14);
///
/// // A loaded Blackman gives the taps of Blackman's code, bit for bit.
/// let blackman = Cosines::load(&[0.42, 0.5, 0.08])?;
/// let mut coded = [0.0; 63];
/// lowpass(1000.0, 8000.0, Window::Cosines(blackman), &mut taps)?;
/// lowpass(1000.0, 8000.0, Window::Blackman, &mut coded)?;
/// assert_eq!(taps, coded);
///
/// // A printed flat top whose last digits don't add up to 1, and one whose digits do.
/// let error = Cosines::load(&[0.21557895, 0.41663158, 0.277263158, 0.083578947, 0.006947368]);
/// assert_eq!(error.unwrap_err().reason, Reason::CoefficientSum);
/// Cosines::load(&[0.215578947, 0.41663158, 0.277263158, 0.083578947, 0.006947368])?;
/// # Ok(())
/// # }
/// ```
#[derive(Clone, Copy, Debug, PartialEq)]
pub struct Cosines {
    record: raw::Cosines,
}

impl Cosines {
    /// Loads a window of these coefficients, c0 first.
    ///
    /// # Errors
    ///
    /// Refused, in this order:
    /// - 17 (1, 5, count) where the count isn't 1 to 5
    /// - 18 (-1, 1, the first such number) where a number isn't finite or is above 1 in size
    /// - 19 the exact sum is further than 2^-40 from 1; exactly so far is taken
    ///
    /// # Examples
    ///
    /// ```
    /// use peldozkar::{Carried, Cosines, Reason};
    ///
    /// let error = Cosines::load(&[]).unwrap_err();
    /// assert_eq!(error.reason, Reason::CoefficientCount);
    /// let error = Cosines::load(&[0.5, -1.5, 2.0]).unwrap_err();
    /// assert_eq!(error.reason, Reason::Coefficient);
    /// assert_eq!(error.carried, Carried::Range { smallest: -1.0, largest: 1.0, offered: -1.5 });
    ///
    /// // 2^-40 from 1, and further by the least number that there is.
    /// let near = 2.0_f64.powi(-40);
    /// assert!(Cosines::load(&[1.0, near]).is_ok());
    /// assert_eq!(Cosines::load(&[1.0, near, 5e-324]).unwrap_err().number(), 19);
    /// ```
    pub fn load(numbers: &[f64]) -> Result<Self, Error> {
        let loaded = raw::pel_load_cosines(bytes(numbers));
        loaded.report.taken()?;
        Ok(Self {
            record: loaded.window,
        })
    }

    /// The coefficients, as they were loaded; those that weren't given are 0.
    ///
    /// ```
    /// let hann = peldozkar::Cosines::load(&[0.5, 0.5]);
    /// assert_eq!(hann.map(|window| window.numbers()), Ok([0.5, 0.5, 0.0, 0.0, 0.0]));
    /// ```
    pub const fn numbers(&self) -> [f64; 5] {
        let raw::Cosines { c0, c1, c2, c3, c4 } = self.record;
        [c0, c1, c2, c3, c4]
    }

    /// The record as C has it.
    pub(crate) const fn record(self) -> raw::Cosines {
        self.record
    }
}

//! A low-pass whose knob is turned: designed again with another cutoff or another beta.

use crate::raw::{self, Tuned};
use crate::sys::bytes_mut;
use crate::{Design, Error, Window};

/// A low-pass whose record is kept, so that a knob can be turned: a new cutoff, or a new beta.
///
/// Each turn fills the buffer with the taps of the new design in the same call. After any list of turns, refused ones
/// included, the record is the one, bit for bit, that [`new`](Self::new) gives for the numbers that were accepted last,
/// and so are the taps; that is proved of the exports, for every list. A refused turn leaves the record and the buffer.
///
/// # Examples
///
/// ```
/// # fn main() -> Result<(), peldozkar::Error> {
/// use peldozkar::{Lowpass, Window, lowpass};
///
/// let mut taps = [0.0; 63];
/// let mut knob = Lowpass::new(1000.0, 8000.0, Window::Kaiser(8.0), &mut taps)?;
/// knob.new_beta(6.0, &mut taps)?;
/// knob.new_cutoff(1200.0, 8000.0, &mut taps)?;
///
/// // The taps that a design from nothing has.
/// let mut fresh = [0.0; 63];
/// lowpass(1200.0, 8000.0, Window::Kaiser(6.0), &mut fresh)?;
/// assert_eq!(taps, fresh);
///
/// // Past half the rate: the taps and the record stay.
/// let kept = knob;
/// assert_eq!(knob.new_cutoff(5000.0, 8000.0, &mut taps).unwrap_err().number(), 2);
/// assert_eq!((knob, taps), (kept, fresh));
/// # Ok(())
/// # }
/// ```
#[derive(Clone, Copy, Debug, PartialEq)]
pub struct Lowpass {
    record: raw::Design,
}

impl Lowpass {
    /// Fills `out` with the taps of a low-pass, as [`lowpass`](crate::lowpass) does, and keeps its record.
    ///
    /// # Errors
    ///
    /// As [`lowpass`](crate::lowpass), with `out` as it came; and 7, before anything else, where the window is a loaded
    /// one: the record is there to save Kaiser's series, which such a window hasn't, so a new design costs the same.
    ///
    /// # Examples
    ///
    /// ```
    /// # fn main() -> Result<(), peldozkar::Error> {
    /// use peldozkar::{Cosines, Lowpass, Reason, Window};
    ///
    /// let window = Window::Cosines(Cosines::load(&[0.42, 0.5, 0.08])?);
    /// let mut taps = [0.0; 63];
    /// let error = Lowpass::new(1000.0, 8000.0, window, &mut taps).unwrap_err();
    /// assert_eq!(error.reason, Reason::Code);
    /// assert_eq!(taps, [0.0; 63]);
    /// # Ok(())
    /// # }
    /// ```
    pub fn new(cutoff: f64, rate: f64, window: Window, out: &mut [f64]) -> Result<Self, Error> {
        let (code, beta) = window.coded();
        let tuned = raw::pel_design_lowpass(cutoff, rate, code, beta, bytes_mut(out));
        Design::of(tuned.report)?;
        Ok(Self {
            record: tuned.design,
        })
    }

    /// Turns the knob to a new cutoff, given with its rate, and fills `out` with the taps.
    ///
    /// # Errors
    ///
    /// Refused, in this order, with the record and `out` as they came:
    /// - 8 `out` isn't as many taps as the design has
    /// - 1 a rate that isn't finite and positive
    /// - 2 (0, rate/2, cutoff) where cutoff/rate isn't between 0 and 1/2
    /// - 10 a divisor that is 0 or not finite
    ///
    /// Its beta was judged when it was taken, and isn't refused with 4 or 16 here.
    pub fn new_cutoff(&mut self, cutoff: f64, rate: f64, out: &mut [f64]) -> Result<Design, Error> {
        let tuned = raw::pel_design_new_cutoff(self.record, cutoff, rate, bytes_mut(out));
        self.turn(tuned)
    }

    /// Turns the knob to a new beta, and fills `out` with the taps.
    ///
    /// # Errors
    ///
    /// Refused, in this order, with the record and `out` as they came:
    /// - 7 a window other than Kaiser's, before anything else
    /// - 8 `out` isn't as many taps as the design has
    /// - 4 a beta that isn't finite and not negative
    /// - 16 a series that the window takes isn't settled: beta is above about 714. One tap takes no series
    /// - 10 a divisor that is 0 or not finite
    ///
    /// # Examples
    ///
    /// ```
    /// # fn main() -> Result<(), peldozkar::Error> {
    /// use peldozkar::{Lowpass, Reason, Window};
    ///
    /// let mut taps = [0.0; 63];
    /// let mut knob = Lowpass::new(1000.0, 8000.0, Window::Kaiser(8.0), &mut taps)?;
    /// let (kept, before) = (knob, taps);
    /// assert_eq!(knob.new_beta(1000.0, &mut taps).unwrap_err().reason, Reason::Unsettled);
    /// assert_eq!((knob, taps), (kept, before));
    /// # Ok(())
    /// # }
    /// ```
    pub fn new_beta(&mut self, beta: f64, out: &mut [f64]) -> Result<Design, Error> {
        let tuned = raw::pel_design_new_beta(self.record, beta, bytes_mut(out));
        self.turn(tuned)
    }

    /// The figures of the design: how many taps, and their divisor.
    pub const fn design(&self) -> Design {
        Design {
            taps: self.record.taps,
            divisor: self.record.sum,
        }
    }

    /// The record as C has it, with the series at beta that it keeps; of one tap what that reached, settled or not.
    pub const fn record(&self) -> raw::Design {
        self.record
    }

    /// Takes what a turn answers: after a refusal that is the record as it was.
    fn turn(&mut self, tuned: Tuned) -> Result<Design, Error> {
        self.record = tuned.design;
        Design::of(tuned.report)
    }
}

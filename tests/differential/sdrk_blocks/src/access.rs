//! A way for a driver to the records and functions that design.rs keeps to its crate.
//!
//! A divisor is a private field, so it is read from the record's `Debug` text, which gives the
//! shortest decimal that reads back as the same f64.

use core::fmt::Debug;

use sdrk_core::Q15;

use crate::design;
use crate::error::Result;

/// The last field `name` in the `Debug` text of a record.
fn field(record: &impl Debug, name: &str) -> f64 {
    let text = format!("{record:?}");
    let start = text
        .rfind(&format!(" {name}: "))
        .expect("the record has the field")
        + name.len()
        + 3;
    let rest = &text[start..];
    let end = rest.find([',', ' ', '}']).unwrap_or(rest.len());
    rest[..end].parse().expect("the field is a number")
}

/// A low-pass design, one tap at a time; also that of a spec or a channelizer.
#[derive(Clone, Copy, Debug)]
pub struct Lowpass(design::Lowpass);

impl Lowpass {
    pub fn new(
        cutoff_hz: f64,
        fs_hz: f64,
        window: design::DesignWindow,
        num_taps: usize,
    ) -> Result<Self> {
        design::Lowpass::new(cutoff_hz, fs_hz, window, num_taps).map(Self)
    }

    pub fn of_spec(spec: &design::DesignSpec, fs_hz: f64, max_taps: usize) -> Result<Self> {
        spec.lowpass(fs_hz, max_taps).map(Self)
    }

    pub fn of_channelizer(
        channels: usize,
        taps_per_branch: usize,
        passband: f64,
        stopband: f64,
        attenuation_db: f64,
    ) -> Result<Self> {
        design::channelizer_lowpass(
            channels,
            taps_per_branch,
            passband,
            stopband,
            attenuation_db,
        )
        .map(Self)
    }

    pub fn count(&self) -> usize {
        self.0.len()
    }

    pub fn tap(&self, i: usize) -> f64 {
        self.0.tap(i)
    }

    /// The cutoff as a fraction of the rate.
    pub fn fraction(&self) -> f64 {
        field(&self.0, "fc")
    }

    /// The sum that the raw taps are divided by.
    pub fn divisor(&self) -> f64 {
        field(&self.0, "sum")
    }
}

/// A half-band design, one tap at a time.
#[derive(Clone, Copy, Debug)]
pub struct Halfband(design::HalfbandDesign);

impl Halfband {
    pub fn new(beta: f64, num_taps: usize) -> Result<Self> {
        design::HalfbandDesign::new(beta, num_taps).map(Self)
    }

    pub fn tap(&self, i: usize) -> f64 {
        self.0.tap(i)
    }

    /// The second sum, that of the mirrored taps.
    pub fn divisor(&self) -> f64 {
        field(&self.0, "sum")
    }
}

/// A Gaussian pulse, one tap at a time.
#[derive(Clone, Copy, Debug)]
pub struct Gaussian(design::Gaussian);

impl Gaussian {
    pub fn new(bt: f64, sps: usize, span: usize) -> Result<Self> {
        design::Gaussian::new(bt, sps, span).map(Self)
    }

    pub fn count(&self) -> usize {
        self.0.len()
    }

    pub fn tap(&self, i: usize) -> f64 {
        self.0.tap(i)
    }

    /// The sum that the raw taps are divided by.
    pub fn divisor(&self) -> f64 {
        field(&self.0, "sum")
    }
}

/// A root-raised-cosine pulse, one tap at a time.
#[derive(Clone, Copy, Debug)]
pub struct Rrc(design::Rrc);

impl Rrc {
    pub fn new(rolloff: f64, sps: usize, span: usize) -> Result<Self> {
        design::Rrc::new(rolloff, sps, span).map(Self)
    }

    pub fn count(&self) -> usize {
        self.0.len()
    }

    pub fn tap(&self, i: usize) -> f64 {
        self.0.tap(i)
    }

    /// The factor of the raw taps, one over the root of their energy.
    pub fn factor(&self) -> f64 {
        field(&self.0, "norm")
    }
}

/// One tap as Q15, within the limit of `to_q15`.
pub fn q15_tap(v: f64) -> Result<Q15> {
    design::q15_tap(v)
}

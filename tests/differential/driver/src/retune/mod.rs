//! A low-pass whose knob is turned: the record, the turns, and what a list of them must come to, by a model over
//! numbers alone.

pub mod bench;
pub mod compare;
pub mod counts;
pub mod faults;
pub mod forged;
pub mod inputs;

use peldozkar::raw;
use sdrk_core::window::bessel_i0;

use crate::lowpass;
use crate::run::designers::Answer;
use crate::run::port;
use crate::run::report::{Report, bits};
use crate::run::tickets::Band;

pub use peldozkar::raw::Design;

/// The code of the one window that has a beta.
pub const KAISER: u64 = 3;

/// The record of a low-pass by its numbers, its taps and their divisor.
pub fn record_of(band: &Band, taps: u64, sum: f64) -> Design {
    let kaiser = band.window == KAISER;
    Design {
        taps,
        fraction: band.cutoff / band.rate,
        window: band.window,
        beta: if kaiser { band.beta } else { 0.0 },
        series: if kaiser { bessel_i0(band.beta) } else { 1.0 },
        sum,
    }
}

/// Whether every field is the same, any NaN being the same as any other.
pub fn same_record(one: &Design, other: &Design) -> bool {
    let words = |design: &Design| {
        [
            design.taps,
            bits(design.fraction),
            design.window,
            bits(design.beta),
            bits(design.series),
            bits(design.sum),
        ]
    };
    words(one) == words(other)
}

/// What an export answers: the record to keep from now on, and the report.
#[derive(Clone, Copy, Debug)]
pub struct Tuned {
    pub design: Design,
    pub report: Report,
}

impl From<raw::Tuned> for Tuned {
    fn from(tuned: raw::Tuned) -> Self {
        Self {
            design: tuned.design,
            report: tuned.report.into(),
        }
    }
}

/// A turn of the knob.
#[derive(Clone, Copy, Debug)]
pub enum Turn {
    Cutoff { cutoff: f64, rate: f64 },
    Beta { beta: f64 },
}

impl Turn {
    /// The numbers with the turn's in their place.
    pub fn put(&self, band: &Band) -> Band {
        match *self {
            Self::Cutoff { cutoff, rate } => Band {
                cutoff,
                rate,
                ..*band
            },
            Self::Beta { beta } => Band { beta, ..*band },
        }
    }

    /// The refusals that come before those of a low-pass, in their order: 7 a beta for a window that has none, 8 in
    /// bytes, 8 in taps.
    pub fn refused(&self, window: u64, taps: u64, bytes: u64) -> Option<Report> {
        if matches!(self, Self::Beta { .. }) && window != KAISER {
            Some(Report::plain(7))
        } else if !bytes.is_multiple_of(8) {
            Some(Report::length(bytes - bytes % 8, bytes))
        } else if bytes / 8 != taps {
            Some(Report::length(taps, bytes / 8))
        } else {
            None
        }
    }
}

/// What a side is asked to turn: the record. The numbers are for the wrong sides, which confuse them.
pub struct Past {
    pub design: Design,
    /// The numbers of the first design.
    pub first: Band,
    /// Those that were accepted last.
    pub last: Band,
}

/// One side of the comparison: the first design, and a turn of what is kept of it.
#[derive(Clone, Copy)]
pub struct Side {
    pub design: fn(&Band, &mut [u8]) -> Tuned,
    pub turn: fn(&Past, &Turn, &mut [u8]) -> Tuned,
}

/// The library, which sees the record alone.
pub const PORT: Side = Side {
    design: port::design_lowpass,
    turn: |past, turn, out| match *turn {
        Turn::Cutoff { cutoff, rate } => port::design_new_cutoff(past.design, cutoff, rate, out),
        Turn::Beta { beta } => port::design_new_beta(past.design, beta, out),
    },
};

/// What must be answered: the report and the taps, and the record to keep.
pub struct Expected {
    pub answer: Answer,
    pub design: Design,
}

impl Expected {
    pub fn report(&self) -> Report {
        self.answer.report
    }
}

/// What the request says is kept: the numbers that were accepted last.
#[derive(Clone, Copy, Debug)]
pub struct Model {
    pub band: Band,
    pub taps: u64,
    /// The divisor of the Rust's design of them.
    sum: f64,
}

impl Model {
    /// The first design: the Rust's low-pass, and its record; all zeros and no model where it is refused.
    pub fn first(band: &Band, bytes: u64) -> (Expected, Option<Self>) {
        let answer = lowpass::filled(band, bytes);
        let model = answer.report.is_accepted().then_some(Self {
            band: *band,
            taps: bytes / 8,
            sum: answer.report.value,
        });
        let design = model.map_or_else(Design::default, |model| model.design());
        (Expected { answer, design }, model)
    }

    /// The record of the numbers that were accepted last.
    pub fn design(&self) -> Design {
        record_of(&self.band, self.taps, self.sum)
    }

    /// A turn: what the Rust designs of the numbers with the turn's in their place, which are kept if they are taken.
    pub fn turn(&mut self, turn: &Turn, bytes: u64) -> Expected {
        let band = turn.put(&self.band);
        let answer = match turn.refused(self.band.window, self.taps, bytes) {
            Some(report) => report.into(),
            None => lowpass::filled(&band, bytes),
        };
        if answer.report.is_accepted() {
            self.band = band;
            self.sum = answer.report.value;
        }
        Expected {
            answer,
            design: self.design(),
        }
    }
}

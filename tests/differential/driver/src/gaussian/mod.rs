//! The Rust's answers to a Gaussian pulse.

pub mod bench;
pub mod faults;
pub mod inputs;
pub mod kinds;

use sdrk_blocks::access::Gaussian;
use sdrk_blocks::design::gaussian;

use crate::run::designers::{Answer, lent, refusal};
use crate::run::report::Report;
use crate::run::tickets::Pulse;

/// The report of a Gaussian pulse's record, or of the error in its place.
pub fn record(pulse: &Pulse) -> Report {
    let (samples, span) = (pulse.samples as usize, pulse.span as usize);
    Gaussian::new(pulse.bt, samples, span).map_or_else(refusal, |gaussian| {
        Report::accepted(gaussian.count() as u64, gaussian.divisor())
    })
}

/// The Rust's taps in a buffer.
pub fn filled(pulse: &Pulse, bytes: u64) -> Answer {
    let (samples, span) = (pulse.samples as usize, pulse.span as usize);
    lent(
        bytes,
        |taps| Ok(gaussian(pulse.bt, samples, span, taps)?),
        || record(pulse),
    )
}

//! A window's gain and bandwidth: both sides' answers.

pub mod faults;
pub mod inputs;
pub mod kinds;

use peldozkar::raw::GainReport;
use sdrk_core::window::window_gain;

use crate::run::lent::Lent;
use crate::run::port;
use crate::run::report::{Report, bits};
use crate::run::tickets::Samples;

/// The port's answer in the form that all tickets are compared in: the gain is the value, and the bandwidth
/// stands where a refusal has what was offered, which this one never has.
impl From<GainReport> for Report {
    fn from(report: GainReport) -> Self {
        Self {
            number: report.number,
            carries: report.carries,
            offered: report.bandwidth,
            expected: report.expected,
            given: report.given,
            count: report.count,
            value: report.gain,
            ..Self::default()
        }
    }
}

/// The fields of the C structure in their order, numbers by their bits.
pub fn words(report: &Report) -> [u64; 7] {
    [
        u64::from(report.number),
        u64::from(report.carries),
        report.expected,
        report.given,
        report.count,
        bits(report.value),
        bits(report.offered),
    ]
}

/// The report of a gain and a bandwidth.
pub fn told(count: u64, (gain, bandwidth): (f64, f64)) -> Report {
    Report {
        offered: bandwidth,
        ..Report::accepted(count, gain)
    }
}

/// The Rust's figures. The byte length is from the scope document.
pub fn rust(samples: &Samples) -> Report {
    if samples.rest > 0 {
        return Report::length(samples.length() - samples.rest, samples.length());
    }
    told(
        samples.elements.len() as u64,
        window_gain(&samples.elements),
    )
}

/// The port's figures; its source is lent, at any alignment and between guards.
pub fn port(samples: &Samples) -> Report {
    let seed = samples.length() ^ samples.elements.len() as u64;
    let mut lent = Lent::new(samples.length(), seed.wrapping_add(samples.shift));
    let bytes = samples.elements.iter().map(|x| x.to_le_bytes());
    for (place, element) in lent.part().chunks_exact_mut(4).zip(bytes) {
        place.copy_from_slice(&element);
    }
    let report = port::window_gain(lent.part());
    let same = |bytes, x: &f32| bytes == x.to_le_bytes();
    assert!(
        lent.begins(samples.elements.iter(), same),
        "the port wrote its source"
    );
    report.into()
}

//! The Rust's answers to a half-band, and the request's to one whose window doesn't settle.

pub mod bench;
pub mod faults;
pub mod inputs;
pub mod kinds;

use sdrk_blocks::Error;
use sdrk_blocks::access::{Halfband, Lowpass};
use sdrk_blocks::design::{DesignWindow, halfband_taps};

use crate::kaiser::settling::judged_taps;
use crate::run::designers::{Answer, Refused, lent, refusal};
use crate::run::report::Report;

/// Whether an error of a half-band's is its second one, for the sum of the mirrored taps. The Rust
/// says beta there too, so it is asked whether it takes the beta.
fn second(error: &Error, beta: f64) -> bool {
    matches!(error, Error::InvalidParameter { name: "beta", .. })
        && Lowpass::new(0.25, 1.0, DesignWindow::Kaiser { beta }, 1).is_ok()
}

/// The report of the Rust's record of a half-band, or of the error in its place.
fn rust_record(beta: f64, taps: u64) -> Report {
    match Halfband::new(beta, taps as usize) {
        Ok(halfband) => Report::accepted(taps, halfband.divisor()),
        Err(error) if second(&error, beta) => Report::plain(10),
        Err(error) => refusal(error),
    }
}

/// The record of a half-band.
pub fn record(beta: f64, taps: u64) -> Report {
    judged_taps(rust_record(beta, taps), beta, taps).report
}

/// The half-band in a buffer.
pub fn filled(beta: f64, bytes: u64) -> Answer {
    judged_taps(rust_filled(beta, bytes), beta, bytes / 8)
}

/// Both of the Rust's half-bands, which must agree on every tap and on every refusal.
fn rust_filled(beta: f64, bytes: u64) -> Answer {
    let again = || rust_record(beta, bytes / 8);
    let answer = lent(
        bytes,
        |taps| {
            halfband_taps(beta, taps).map_err(|error| {
                if second(&error, beta) {
                    Refused::Overwritten(Report::plain(10))
                } else {
                    error.into()
                }
            })
        },
        again,
    );
    if answer.report.is_accepted() {
        let halfband = Halfband::new(beta, answer.taps.len()).expect("the record was accepted");
        for (i, tap) in answer.taps.iter().enumerate() {
            assert!(
                tap.to_bits() == halfband.tap(i).to_bits(),
                "the Rust's half-bands differ at tap {i} of {} with beta {beta:?}",
                answer.taps.len()
            );
        }
    } else if answer.report.number != 8 {
        assert!(
            answer.report.same(&again()),
            "the Rust's half-bands are refused in two ways"
        );
    }
    answer
}

//! The answers to a second-order section, a Butterworth filter and a pre-emphasis: the Rust's, and
//! the request's to Butterworth filters of odd order.

pub mod bench;
pub mod butterworth_faults;
pub mod faults;
pub mod inputs;
pub mod kinds;
pub mod odd;

use sdrk_blocks::Result;
use sdrk_blocks::design::{BiquadResponse, biquad_coefs, butterworth_sos, preemphasis_coefs};

use crate::run::designers::{Answer, refusal};
use crate::run::report::Report;
use crate::run::rust_lent::{elements, left};
use crate::run::tickets::{Cascade, Section};

/// The Rust's response of a code, or nothing for a code it doesn't have.
fn response(code: u64) -> Option<BiquadResponse> {
    match code {
        0 => Some(BiquadResponse::Lowpass),
        1 => Some(BiquadResponse::Highpass),
        2 => Some(BiquadResponse::Bandpass),
        3 => Some(BiquadResponse::Notch),
        _ => None,
    }
}

/// The Rust's coefficients in a buffer of `bytes` bytes, which must be just as long as they are.
fn coefs<const COUNT: usize>(bytes: u64, made: impl FnOnce() -> Result<[f64; COUNT]>) -> Answer {
    let count = COUNT as u64;
    if bytes != 8 * count {
        return Report::length(8 * count, bytes).into();
    }
    made().map_or_else(
        |error| refusal(error).into(),
        |coefs| Answer {
            report: Report::accepted(count, 0.0),
            taps: coefs.to_vec(),
            ..Answer::default()
        },
    )
}

/// The Rust's second-order section.
pub fn biquad(section: &Section, bytes: u64) -> Answer {
    match response(section.response) {
        None => Report::plain(7).into(),
        Some(response) => coefs(bytes, || {
            biquad_coefs(response, section.centre, section.q, section.rate)
        }),
    }
}

/// The Rust's pre-emphasis.
pub fn preemphasis(tau: f64, rate: f64, bytes: u64) -> Answer {
    coefs(bytes, || preemphasis_coefs(tau, rate))
}

/// The Rust's Butterworth filter, of an odd order the request's. The Rust's buffers are whole
/// sections, so one that isn't is put to it as an empty one: that is as wrong, and comes at the same
/// place in the order.
pub fn butterworth(cascade: &Cascade, bytes: u64) -> Answer {
    let Some(response) = response(cascade.response) else {
        return Report::plain(7).into();
    };
    if !bytes.is_multiple_of(8) {
        return Report::length(bytes - bytes % 8, bytes).into();
    }
    let count = bytes / 8;
    if odd::is_odd(cascade) {
        return odd::filter(response, cascade, count);
    }
    let lent = if count.is_multiple_of(5) { count } else { 0 };
    let mut numbers: Vec<f64> = elements(lent);
    let (sections, _) = numbers.as_chunks_mut::<5>();
    let order = cascade.order as usize;
    match butterworth_sos(response, order, cascade.cutoff, cascade.rate, sections) {
        Ok(()) => Answer {
            report: Report::accepted(count, 0.0),
            taps: numbers,
            ..Answer::default()
        },
        Err(error) => {
            assert!(left(&numbers, 0), "the Rust wrote before a refusal");
            let report = refusal(error);
            if report.number == 8 {
                Report::length(5 * report.expected, count).into()
            } else {
                report.into()
            }
        }
    }
}

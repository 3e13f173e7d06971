//! The Rust's answers to a window, as samples of f32 or of Q15, and the request's to one that doesn't settle.

pub mod bench;
pub mod faults;
pub mod gain;
pub mod inputs;
pub mod kinds;

use sdrk_core::window::{Symmetry, blackman_harris, hann, kaiser};
use sdrk_core::{Error, Q15, RealSample, Result};

use crate::kaiser::settling::judged;
use crate::run::designers::Answer;
use crate::run::report::Report;
use crate::run::rust_lent::{Element, elements, left};
use crate::run::tickets::{Form, Format, Window};

/// The Rust's symmetry of a code, or nothing for a code it doesn't have.
fn symmetry(code: u64) -> Option<Symmetry> {
    match code {
        0 => Some(Symmetry::Periodic),
        1 => Some(Symmetry::Symmetric),
        _ => None,
    }
}

/// Fills a slice with a window.
pub fn fill<R: RealSample>(form: Form, symmetry: Symmetry, out: &mut [R]) -> Result<()> {
    match form {
        Form::Hann => hann(out, symmetry),
        Form::BlackmanHarris => blackman_harris(out, symmetry),
        Form::Kaiser { beta } => kaiser(out, beta, symmetry),
    }
}

/// The report of a window of that many samples, and the samples, lent full of random bits.
fn filled<R: RealSample + Element>(form: Form, symmetry: Symmetry, count: u64) -> (Report, Vec<R>) {
    let mut samples = elements(count);
    match fill(form, symmetry, &mut samples) {
        Ok(()) => (Report::accepted(count, 0.0), samples),
        Err(Error::InvalidParameter(_)) => {
            assert!(left(&samples, 0), "the Rust wrote before a refusal");
            (Report::plain(4), Vec::new())
        }
        Err(error) => panic!("an error of the Rust that has no number: {error:?}"),
    }
}

/// The length divisor of a window of that many samples, by the symmetry's code.
pub fn divisor(symmetry: u64, count: u64) -> u64 {
    count.saturating_sub(symmetry)
}

/// The Rust's window, or 16 where it is Kaiser's and doesn't settle.
pub fn rust(window: &Window, bytes: u64) -> Answer {
    let answer = unjudged(window, bytes);
    match window.form {
        Form::Hann | Form::BlackmanHarris => answer,
        Form::Kaiser { beta } => {
            let count = bytes / window.format.width();
            judged(answer, beta, divisor(window.symmetry, count), count)
        }
    }
}

/// The Rust's window. The code and the byte length are from the scope document.
pub fn unjudged(window: &Window, bytes: u64) -> Answer {
    let Some(symmetry) = symmetry(window.symmetry) else {
        return Report::plain(7).into();
    };
    let width = window.format.width();
    if !bytes.is_multiple_of(width) {
        return Report::length(bytes - bytes % width, bytes).into();
    }
    let count = bytes / width;
    match window.format {
        Format::F32 => {
            let (report, singles) = filled(window.form, symmetry, count);
            Answer {
                report,
                singles,
                ..Answer::default()
            }
        }
        Format::Q15 => {
            let (report, samples) = filled::<Q15>(window.form, symmetry, count);
            Answer {
                report,
                fixed: samples.into_iter().map(|sample| sample.0).collect(),
                ..Answer::default()
            }
        }
    }
}

//! The Rust's answers to a conversion to Q15: one number, one tap, or a buffer of them.

pub mod faults;
pub mod inputs;
pub mod kinds;

use sdrk_blocks::access::q15_tap;
use sdrk_blocks::design::to_q15;
use sdrk_core::num::q15_from_f64;
use sdrk_core::{Q15, RealSample};

use crate::run::designers::{Answer, refusal};
use crate::run::report::Report;
use crate::run::rust_lent::{elements, left};
use crate::run::tickets::Source;

/// The Rust's number, by both of its functions.
pub fn number(x: f64) -> Report {
    let number = q15_from_f64(x);
    assert!(
        number == Q15::from_f64_round(x),
        "the Rust has two numbers for {x:?}"
    );
    Report::accepted(0, f64::from(number.0))
}

/// The Rust's tap.
pub fn tap(tap: f64) -> Report {
    q15_tap(tap).map_or_else(refusal, |number| Report::accepted(0, f64::from(number.0)))
}

/// The Rust's conversion into a buffer of `bytes` bytes full of random bits: what it has written of
/// it, and the report. The byte lengths are from the scope document, and so is the index that 11
/// carries: that of the first element for which the Rust's single tap is refused.
pub fn rust(source: &Source, bytes: u64) -> Answer {
    if source.rest > 0 {
        return Report::length(source.length() - source.rest, source.length()).into();
    }
    if !bytes.is_multiple_of(2) {
        return Report::length(bytes - 1, bytes).into();
    }
    let count = bytes / 2;
    let mut numbers: Vec<Q15> = elements(count);
    let (report, written) = match to_q15(&source.elements, &mut numbers) {
        Ok(()) => (Report::accepted(count, 0.0), numbers.len()),
        Err(error) => {
            let report = refusal(error);
            let refused = |&tap: &f64| q15_tap(tap).is_err();
            match source.elements.iter().position(refused) {
                Some(place) if report.number == 11 => {
                    let index = place as u64;
                    (Report { index, ..report }, place)
                }
                _ => (report, 0),
            }
        }
    };
    assert!(
        report.number != 11 || written < numbers.len(),
        "the Rust refuses an element that it takes"
    );
    assert!(
        left(&numbers, written),
        "the Rust wrote after the element that it refused"
    );
    numbers.truncate(written);
    for (number, &tap) in numbers.iter().zip(&source.elements) {
        assert!(
            q15_tap(tap) == Ok(*number),
            "the Rust's conversion and its single tap differ"
        );
    }
    Answer {
        report,
        fixed: numbers.into_iter().map(|number| number.0).collect(),
        ..Answer::default()
    }
}

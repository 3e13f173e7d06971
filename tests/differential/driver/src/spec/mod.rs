//! The Rust's answers to a spec, and the request's to one whose window doesn't settle.

pub mod bench;
pub mod faults;
pub mod inputs;
pub mod kinds;

use sdrk_blocks::access::Lowpass;
use sdrk_blocks::design::{DesignSpec, kaiserord};

use crate::kaiser::settling::judged_taps;
use crate::run::designers::{Answer, counted, lent, recorded};
use crate::run::report::Report;
use crate::run::tickets::Spec;

/// The Rust's spec, without the rate and the cap, which it takes apart.
fn design_spec(spec: &Spec) -> DesignSpec {
    DesignSpec {
        cutoff_hz: spec.cutoff,
        transition_hz: spec.transition,
        attenuation_db: spec.attenuation,
    }
}

/// The Rust's number of taps.
pub fn count(spec: &Spec) -> Report {
    counted(design_spec(spec).num_taps(spec.rate, spec.max_taps as usize))
}

/// The answer, or 16 where the window of the spec's beta doesn't settle.
fn judged(answer: impl Into<Answer>, spec: &Spec) -> Answer {
    match kaiserord(spec.attenuation, spec.transition, spec.rate) {
        Ok((count, beta)) => judged_taps(answer, beta, count as u64),
        Err(_) => answer.into(),
    }
}

/// The Rust's record of the spec's low-pass.
fn rust_record(spec: &Spec) -> Report {
    let most = spec.max_taps as usize;
    recorded(Lowpass::of_spec(&design_spec(spec), spec.rate, most))
}

/// The record of the spec's low-pass.
pub fn record(spec: &Spec) -> Report {
    judged(rust_record(spec), spec).report
}

/// The taps in a buffer.
pub fn filled(spec: &Spec, bytes: u64) -> Answer {
    let answer = lent(
        bytes,
        |taps| Ok(design_spec(spec).design(spec.rate, spec.max_taps as usize, taps)?),
        || rust_record(spec),
    );
    judged(answer, spec)
}

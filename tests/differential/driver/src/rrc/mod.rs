//! The Rust's answers to a root-raised-cosine pulse.

pub mod bench;
pub mod faults;
pub mod inputs;
pub mod kinds;

use sdrk_blocks::Result;
use sdrk_blocks::access::Rrc;
use sdrk_blocks::design::{rrc, rrc_len};

use crate::run::designers::{Answer, counted, lent, refusal};
use crate::run::report::Report;
use crate::run::tickets::Cosine;

/// The Rust's number of taps.
pub fn count(samples: u64, span: u64) -> Report {
    counted(rrc_len(samples as usize, span as usize))
}

/// The Rust's root-raised-cosine pulse as a record.
fn cosine_record(cosine: &Cosine) -> Result<Rrc> {
    Rrc::new(
        cosine.rolloff,
        cosine.samples as usize,
        cosine.span as usize,
    )
}

/// The report of a root-raised-cosine pulse's record, or of the error in its place.
fn recorded(answer: Result<Rrc>) -> Report {
    answer.map_or_else(refusal, |rrc| {
        Report::accepted(rrc.count() as u64, rrc.factor())
    })
}

/// The Rust's record of the pulse.
pub fn record(cosine: &Cosine) -> Report {
    recorded(cosine_record(cosine))
}

/// The Rust's root-raised-cosine pulse, which must be that of its record.
pub fn filled(cosine: &Cosine, bytes: u64) -> Answer {
    let (samples, span) = (cosine.samples as usize, cosine.span as usize);
    let record = cosine_record(cosine);
    let answer = lent(
        bytes,
        |taps| Ok(rrc(cosine.rolloff, samples, span, taps)?),
        || recorded(record),
    );
    for (i, tap) in answer.taps.iter().enumerate() {
        assert!(
            record.is_ok_and(|record| record.tap(i).to_bits() == tap.to_bits()),
            "the Rust's pulse and its record differ at tap {i} of {cosine:?}"
        );
    }
    answer
}

//! The Rust's answers to a conversion to Q14: one number, or a buffer of them.

pub mod faults;
pub mod inputs;
pub mod kinds;

use sdrk_blocks::design::to_q14;
use sdrk_core::num::q14_from_f64;

use crate::formats::{converted, lengths_refused};
use crate::run::designers::{Answer, refusal};
use crate::run::report::Report;
use crate::run::tickets::Source;

/// The Rust's Q14 number. What the refusal carries is asked of its conversion of a section.
pub fn number(x: f64) -> Report {
    let mut section = [[0; 5]];
    match (
        q14_from_f64(x),
        to_q14(&[[x, 0.0, 0.0, 0.0, 0.0]], &mut section),
    ) {
        (Some(number), Ok(())) => {
            assert!(
                section[0][0] == number,
                "the Rust's conversion and its single number differ"
            );
            Report::accepted(0, f64::from(number))
        }
        (None, Err(error)) => refusal(error),
        _ => panic!("the Rust takes {x:?} in one way alone"),
    }
}

/// The Rust's conversion of sections to Q14.
pub fn sections(source: &Source, bytes: u64) -> Answer {
    if let Some(report) = lengths_refused(source, bytes, 2, 5) {
        return report.into();
    }
    let (sections, _) = source.elements.as_chunks::<5>();
    let (report, fixed) = converted(
        source,
        bytes / 2,
        5,
        |numbers: &mut [i16]| to_q14(sections, numbers.as_chunks_mut().0),
        |x| q14_from_f64(x).is_some(),
    );
    for (number, &x) in fixed.iter().zip(&source.elements) {
        assert!(
            q14_from_f64(x) == Some(*number),
            "the Rust's conversion and its single number differ"
        );
    }
    Answer {
        report,
        fixed,
        ..Answer::default()
    }
}

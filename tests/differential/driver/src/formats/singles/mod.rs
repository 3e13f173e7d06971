//! The Rust's answers to a conversion to f32.

pub mod faults;
pub mod inputs;
pub mod kinds;

use sdrk_blocks::design::{to_f32, to_f32_sos};

use crate::formats::{converted, lengths_refused};
use crate::run::designers::Answer;
use crate::run::tickets::Source;

/// The Rust's conversion to f32, of numbers one by one (`group` is 1) or of sections (5).
pub fn rust(source: &Source, bytes: u64, group: u64) -> Answer {
    if let Some(report) = lengths_refused(source, bytes, 4, group) {
        return report.into();
    }
    let (sections, _) = source.elements.as_chunks::<5>();
    let (report, singles) = converted(
        source,
        bytes / 4,
        group,
        |numbers: &mut [f32]| match group {
            1 => to_f32(&source.elements, numbers),
            _ => to_f32_sos(sections, numbers.as_chunks_mut().0),
        },
        |_| true,
    );
    Answer {
        report,
        singles,
        ..Answer::default()
    }
}

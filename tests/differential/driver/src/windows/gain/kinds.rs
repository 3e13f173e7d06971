//! What the kind of a window's gain must meet.

use crate::run::cases::{LENGTH, case};
use crate::run::kinds::About;
use crate::run::tickets::Kind;

pub const KINDS: &[About] = &[About {
    kind: Kind::WindowGain,
    name: "window_gain",
    number: 48,
    share: 5,
    refusals: &[(8, LENGTH)],
    totals: false,
    // The value is the gain, what is offered the bandwidth.
    cases: &[
        case!("no samples", |_, report| report.is_accepted()
            && report.count == 0),
        case!("zeros alone", |ticket, report| {
            report.value == 0.0
                && report.offered.is_nan()
                && ticket
                    .samples()
                    .is_some_and(|samples| samples.elements.iter().all(|&x| x == 0.0))
        }),
        case!("a sum of 0", |_, report| report.value == 0.0
            && report.offered == f64::INFINITY),
        case!("a NaN", |_, report| report.value.is_nan()),
        case!("an infinite gain", |_, report| report.value.is_infinite()
            && report.offered.is_nan()),
        case!("a negative gain", |_, report| report.value < 0.0),
        case!("8 with no whole sample", |_, report| report.number == 8
            && report.expected == 0),
        case!("8 with a NaN", |ticket, report| report.number == 8
            && ticket.samples().is_some_and(|samples| samples
                .elements
                .iter()
                .any(|x| x.is_nan()))),
    ],
}];

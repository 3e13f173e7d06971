//! What the kinds of Gaussian pulses must meet.

use crate::run::cases::{Case, IN_BYTES, IN_ELEMENTS, LENGTH, RANGE, case};
use crate::run::kinds::About;
use crate::run::tickets::Kind;

const SPAN: Case = case!("6 by the span", |ticket, report| {
    (report.number, report.largest) == (6, 8.0)
        && ticket
            .pulse()
            .is_some_and(|pulse| (2..=10).contains(&pulse.samples))
});

const SAMPLES_FEW: Case = case!("6 by too few samples", |_, report| {
    report.number == 6 && report.largest > 8.0 && report.offered < 2.0
});

const SAMPLES_MANY: Case = case!("6 by one sample too many", |_, report| {
    report.number == 6 && report.largest > 8.0 && report.offered == report.largest + 1.0
});

const SPAN_AND_SAMPLES: Case = case!(
    "6 by the span, the samples being wrong too",
    |ticket, report| {
        (report.number, report.largest) == (6, 8.0)
            && ticket.pulse().is_some_and(|pulse| pulse.samples < 2)
    }
);

pub const KINDS: &[About] = &[
    About {
        kind: Kind::GaussianNew,
        name: "gaussian_new",
        number: 23,
        share: 8,
        refusals: &[(5, RANGE), (6, RANGE)],
        totals: false,
        cases: &[SPAN, SAMPLES_FEW, SAMPLES_MANY, SPAN_AND_SAMPLES],
    },
    About {
        kind: Kind::Gaussian,
        name: "gaussian",
        number: 24,
        share: 10,
        refusals: &[(5, RANGE), (6, RANGE), (8, LENGTH)],
        totals: true,
        cases: &[
            IN_BYTES,
            IN_ELEMENTS,
            SPAN,
            SAMPLES_FEW,
            SAMPLES_MANY,
            SPAN_AND_SAMPLES,
        ],
    },
];

//! What the kinds of root-raised-cosine pulses must meet.

use crate::rrc::inputs::{NEAR, distances, times};
use crate::run::cases::{Case, IN_BYTES, IN_ELEMENTS, LENGTH, RANGE, case};
use crate::run::kinds::About;
use crate::run::tickets::{Cosine, Kind, Ticket};

fn of_cosine(ticket: &Ticket, holds: impl FnOnce(Cosine) -> bool) -> bool {
    ticket.cosine().is_some_and(holds)
}

const SAMPLES_FEW: Case = case!("6 by one sample", |_, report| {
    (report.number, report.largest, report.offered) == (6, 1024.0, 1.0)
});

const SAMPLES_MANY: Case = case!("6 by 1025 samples", |_, report| {
    (report.number, report.largest, report.offered) == (6, 1024.0, 1025.0)
});

const SPAN_SHORT: Case = case!("6 by a span of 3", |_, report| {
    (report.number, report.largest, report.offered) == (6, 32.0, 3.0)
});

const SPAN_LONG: Case = case!("6 by a span of 33", |_, report| {
    (report.number, report.largest, report.offered) == (6, 32.0, 33.0)
});

const SAMPLES_AND_SPAN: Case = case!(
    "6 by the samples, the span being wrong too",
    |ticket, report| {
        (report.number, report.largest) == (6, 1024.0)
            && of_cosine(ticket, |cosine| !(4..=32).contains(&cosine.span))
    }
);

const ROLLOFF_FIRST: Case = case!("5 where the samples are wrong too", |ticket, report| {
    report.number == 5 && of_cosine(ticket, |cosine| cosine.samples < 2)
});

/// A count that an f64 doesn't hold is offered as the nearest one that it does.
const ROUNDED: Case = case!("a count rounded to an f64", |_, report| {
    report.number == 6 && report.offered == 9_007_199_254_740_992.0
});

/// Whether the pulse is accepted and one of its taps is as far from a singular point as said.
fn some(ticket: &Ticket, accepted: bool, holds: fn(f64) -> bool) -> bool {
    accepted && of_cosine(ticket, |cosine| distances(cosine).any(holds))
}

const ON: Case = case!("a tap on a singular point", |ticket, report| {
    some(ticket, report.is_accepted(), |off| off == 0.0)
});

const NEXT: Case = case!("a tap next to a singular point", |ticket, report| {
    some(ticket, report.is_accepted(), |off| {
        off != 0.0 && off.abs() < NEAR / 1000.0
    })
});

const INSIDE: Case = case!("a tap hardly by the closed form", |ticket, report| {
    some(ticket, report.is_accepted(), |off| {
        off.abs() < NEAR && off.abs() > NEAR - 1e-14
    })
});

const OUTSIDE: Case = case!("a tap hardly by the formula", |ticket, report| {
    some(ticket, report.is_accepted(), |off| {
        off.abs() >= NEAR && off.abs() < NEAR + 1e-14
    })
});

const NO_MIDDLE: Case = case!("no tap in the middle", |ticket, report| {
    report.is_accepted() && of_cosine(ticket, |cosine| times(cosine).all(|t| t != 0.0))
});

pub const KINDS: &[About] = &[
    About {
        kind: Kind::RrcLen,
        name: "rrc_len",
        number: 32,
        share: 3,
        refusals: &[(6, RANGE)],
        totals: false,
        cases: &[
            SAMPLES_FEW,
            SAMPLES_MANY,
            SPAN_SHORT,
            SPAN_LONG,
            SAMPLES_AND_SPAN,
            ROUNDED,
            case!("9 taps", |_, report| report.count == 9),
            case!("32769 taps", |_, report| report.count == 32769),
        ],
    },
    About {
        kind: Kind::RrcNew,
        name: "rrc_new",
        number: 33,
        share: 5,
        refusals: &[(5, RANGE), (6, RANGE)],
        totals: false,
        cases: &[
            SAMPLES_FEW,
            SAMPLES_MANY,
            SPAN_SHORT,
            SPAN_LONG,
            SAMPLES_AND_SPAN,
            ROLLOFF_FIRST,
            ROUNDED,
            ON,
            NEXT,
            INSIDE,
            OUTSIDE,
            NO_MIDDLE,
        ],
    },
    About {
        kind: Kind::Rrc,
        name: "rrc",
        number: 34,
        share: 6,
        refusals: &[(5, RANGE), (6, RANGE), (8, LENGTH)],
        totals: false,
        cases: &[
            IN_BYTES,
            IN_ELEMENTS,
            SAMPLES_FEW,
            SAMPLES_MANY,
            SPAN_SHORT,
            SPAN_LONG,
            SAMPLES_AND_SPAN,
            ROLLOFF_FIRST,
            ROUNDED,
            ON,
            NEXT,
            INSIDE,
            OUTSIDE,
            NO_MIDDLE,
        ],
    },
];

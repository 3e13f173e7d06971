//! What the kinds of specs must meet.

use sdrk_blocks::design::kaiser_beta;

use crate::kaiser::settling::is_settled;
use crate::run::cases::{CAP, Case, LENGTH, PLAIN, RANGE, case};
use crate::run::kinds::About;
use crate::run::report::Report;
use crate::run::tickets::{Kind, LARGEST_COUNT, Spec, Ticket};

/// Whether the ticket is a spec's for which that holds.
fn of_spec(ticket: &Ticket, holds: impl FnOnce(Spec) -> bool) -> bool {
    ticket.spec().is_some_and(holds)
}

const WIDTH_TOO_LARGE: Case = case!("3 plain by a width too large", |ticket, report| {
    (report.number, report.carries) == (3, PLAIN) && of_spec(ticket, |spec| spec.transition > 1.0)
});

const WIDTH_TOO_SMALL: Case = case!("3 plain by a width too small", |ticket, report| {
    (report.number, report.carries) == (3, PLAIN) && of_spec(ticket, |spec| spec.transition < 1.0)
});

const OF_HALF_THE_RATE: Case = case!("3 with half the rate", |ticket, report| {
    (report.number, report.carries) == (3, RANGE)
        && of_spec(ticket, |spec| report.largest == spec.rate / 2.0)
});

const OF_THE_RATE: Case = case!("3 with the whole rate", |ticket, report| {
    (report.number, report.carries) == (3, RANGE)
        && of_spec(ticket, |spec| report.largest == spec.rate)
});

/// Whether it is the low-pass that refuses the cutoff, and not the spec.
fn is_lost(ticket: &Ticket, report: &Report) -> bool {
    report.number == 2
        && of_spec(ticket, |spec| {
            let largest = spec.rate / 2.0 - spec.transition / 2.0;
            spec.cutoff > 0.0 && spec.cutoff <= largest
        })
}

const QUOTIENT_LOST: Case = case!("2 by a quotient that underflows", |ticket, report| {
    is_lost(ticket, report)
});

/// Whether the spec's beta is one for which that holds.
fn of_beta(ticket: &Ticket, holds: impl FnOnce(f64) -> bool) -> bool {
    of_spec(ticket, |spec| holds(kaiser_beta(spec.attenuation.abs())))
}

fn unsettled(ticket: &Ticket) -> bool {
    of_beta(ticket, |beta| beta.is_finite() && !is_settled(beta))
}

const ABOVE_713: Case = case!("taps of a beta above 713", |ticket, report| {
    report.is_accepted() && of_beta(ticket, |beta| beta > 713.0)
});

const CAP_FIRST: Case = case!("9 before a series that doesn't settle", |ticket, report| {
    report.number == 9 && unsettled(ticket)
});

const QUOTIENT_FIRST: Case = case!(
    "2 by a quotient before a series that doesn't settle",
    |ticket, report| { is_lost(ticket, report) && unsettled(ticket) }
);

const COUNT_FIRST: Case = case!("6 before a series that doesn't settle", |ticket, report| {
    report.number == 6 && unsettled(ticket)
});

pub const KINDS: &[About] = &[
    About {
        kind: Kind::SpecNumTaps,
        name: "spec_num_taps",
        number: 18,
        share: 10,
        refusals: &[
            (1, PLAIN),
            (2, RANGE),
            (3, PLAIN),
            (3, RANGE),
            (4, PLAIN),
            (9, CAP),
        ],
        totals: false,
        cases: &[
            WIDTH_TOO_LARGE,
            WIDTH_TOO_SMALL,
            OF_HALF_THE_RATE,
            OF_THE_RATE,
            case!("16777217 taps", |_, report| report.count == LARGEST_COUNT),
            case!("a series that isn't taken", |ticket, report| report
                .is_accepted()
                && unsettled(ticket)),
        ],
    },
    About {
        kind: Kind::SpecLowpass,
        name: "spec_lowpass",
        number: 19,
        share: 8,
        refusals: &[
            (1, PLAIN),
            (2, RANGE),
            (3, PLAIN),
            (3, RANGE),
            (4, PLAIN),
            (6, PLAIN),
            (9, CAP),
            (16, PLAIN),
        ],
        totals: false,
        cases: &[
            WIDTH_TOO_LARGE,
            WIDTH_TOO_SMALL,
            OF_HALF_THE_RATE,
            OF_THE_RATE,
            QUOTIENT_LOST,
            ABOVE_713,
            CAP_FIRST,
            QUOTIENT_FIRST,
            COUNT_FIRST,
        ],
    },
    About {
        kind: Kind::SpecDesign,
        name: "spec_design",
        number: 20,
        share: 10,
        refusals: &[
            (1, PLAIN),
            (2, RANGE),
            (3, PLAIN),
            (3, RANGE),
            (4, PLAIN),
            (6, PLAIN),
            (8, LENGTH),
            (9, CAP),
            (16, PLAIN),
        ],
        totals: true,
        cases: &[
            WIDTH_TOO_LARGE,
            WIDTH_TOO_SMALL,
            OF_HALF_THE_RATE,
            OF_THE_RATE,
            QUOTIENT_LOST,
            ABOVE_713,
            CAP_FIRST,
            QUOTIENT_FIRST,
            case!("8 before a series that doesn't settle", |ticket, report| {
                report.number == 8 && ticket.bytes() % 8 == 0 && unsettled(ticket)
            }),
            case!("8 in bytes", |ticket, report| {
                report.number == 8 && report.given == ticket.bytes() && ticket.bytes() % 8 != 0
            }),
            case!("8 in elements", |ticket, report| {
                report.number == 8 && report.given == ticket.bytes() / 8 && report.given > 0
            }),
        ],
    },
];

//! What the kinds of half-bands must meet.

use crate::kaiser::settling::{is_settled, series};
use crate::run::cases::{Case, IN_BYTES, LENGTH, PLAIN, case};
use crate::run::kinds::About;
use crate::run::tickets::{Kind, Ticket};

/// Whether that refusal is a half-band's for a beta and a number of taps for which that holds.
fn of_halfband(ticket: &Ticket, holds: impl FnOnce(f64, u64) -> bool) -> bool {
    ticket
        .halfband()
        .is_some_and(|(beta, taps)| holds(beta, taps))
}

const EVEN: Case = case!("6 by an even number of taps", |ticket, report| {
    report.number == 6 && of_halfband(ticket, |_, taps| taps > 0 && taps.is_multiple_of(2))
});

const ONE_OVER: Case = case!("6 by 1 mod 4", |ticket, report| {
    report.number == 6 && of_halfband(ticket, |_, taps| taps % 4 == 1)
});

const LONG: Case = case!(
    "6 above 2^24 at 3 mod 4",
    |ticket, report| { report.number == 6 && of_halfband(ticket, |_, taps| taps % 4 == 3) }
);

const SHORTEST: Case = case!("3 taps", |_, report| report.count == 3);

const TWO_FAULTS: Case = case!("6 before a beta that isn't taken", |ticket, report| {
    report.number == 6 && of_halfband(ticket, |beta, _| beta.is_nan() || beta < 0.0)
});

/// Whether its beta is one that is taken, and the series there doesn't settle.
fn unsettled(ticket: &Ticket) -> bool {
    of_halfband(ticket, |beta, _| {
        beta > 0.0 && beta.is_finite() && !is_settled(beta)
    })
}

const FEWER_TERMS: Case = case!(
    "16 by a series of fewer than 500 terms",
    |ticket, report| {
        report.number == 16 && of_halfband(ticket, |beta, _| series(beta).terms < 500)
    }
);

const ALL_TERMS: Case = case!("16 by a series of 500 terms", |ticket, report| {
    report.number == 16 && of_halfband(ticket, |beta, _| series(beta).terms == 500)
});

const SHORTEST_UNSETTLED: Case = case!("16 at 3 taps", |ticket, report| {
    report.number == 16 && of_halfband(ticket, |_, taps| taps == 3)
});

const ABOVE_713: Case = case!("taps of a beta above 713", |ticket, report| {
    report.is_accepted() && of_halfband(ticket, |beta, _| beta > 713.0)
});

const COUNT_FIRST: Case = case!("6 before a series that doesn't settle", |ticket, report| {
    report.number == 6 && unsettled(ticket)
});

const BETA_FIRST: Case = case!("4 before a series that doesn't settle", |ticket, report| {
    report.number == 4 && of_halfband(ticket, |beta, _| !is_settled(beta))
});

const LENGTH_FIRST: Case = case!("8 before a series that doesn't settle", |ticket, report| {
    report.number == 8 && unsettled(ticket)
});

pub const KINDS: &[About] = &[
    About {
        kind: Kind::HalfbandNew,
        name: "halfband_new",
        number: 21,
        share: 8,
        refusals: &[(4, PLAIN), (6, PLAIN), (16, PLAIN)],
        totals: false,
        cases: &[
            EVEN,
            ONE_OVER,
            LONG,
            SHORTEST,
            TWO_FAULTS,
            FEWER_TERMS,
            ALL_TERMS,
            SHORTEST_UNSETTLED,
            ABOVE_713,
            COUNT_FIRST,
            BETA_FIRST,
        ],
    },
    About {
        kind: Kind::Halfband,
        name: "halfband",
        number: 22,
        share: 10,
        refusals: &[(4, PLAIN), (6, PLAIN), (8, LENGTH), (16, PLAIN)],
        totals: true,
        cases: &[
            IN_BYTES,
            EVEN,
            ONE_OVER,
            LONG,
            SHORTEST,
            TWO_FAULTS,
            FEWER_TERMS,
            ALL_TERMS,
            SHORTEST_UNSETTLED,
            ABOVE_713,
            COUNT_FIRST,
            BETA_FIRST,
            LENGTH_FIRST,
        ],
    },
];

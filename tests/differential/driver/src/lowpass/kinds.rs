//! What the kinds of low-passes must meet.

use crate::kaiser::settling::{is_settled, series};
use crate::run::cases::{Case, LENGTH, PLAIN, RANGE, case};
use crate::run::kinds::About;
use crate::run::tickets::{Kind, LARGEST_COUNT, Ticket};

/// The number of taps that the ticket asks for.
fn taps(ticket: &Ticket) -> u64 {
    match *ticket {
        Ticket::LowpassNew { taps, .. } => taps,
        _ => ticket.bytes() / 8,
    }
}

/// Whether the ticket is one of Kaiser's window and a beta for which that holds.
fn of_kaiser(ticket: &Ticket, holds: impl FnOnce(f64) -> bool) -> bool {
    ticket
        .band()
        .is_some_and(|band| band.window == 3 && holds(band.beta))
}

/// Whether its beta is one that is taken, and the series there doesn't settle.
fn unsettled(ticket: &Ticket) -> bool {
    of_kaiser(ticket, |beta| {
        beta > 0.0 && beta.is_finite() && !is_settled(beta)
    })
}

const FEWER_TERMS: Case = case!(
    "16 by a series of fewer than 500 terms",
    |ticket, report| { report.number == 16 && of_kaiser(ticket, |beta| series(beta).terms < 500) }
);

const ALL_TERMS: Case = case!("16 by a series of 500 terms", |ticket, report| {
    report.number == 16 && of_kaiser(ticket, |beta| series(beta).terms == 500)
});

const TWO_TAPS: Case = case!("16 before a sum of 0", |ticket, report| {
    report.number == 16 && taps(ticket) == 2
});

const ONE_TAP: Case = case!("one tap of a beta that doesn't settle", |ticket, report| {
    report.count == 1 && unsettled(ticket)
});

const ABOVE_713: Case = case!("taps of a beta above 713", |ticket, report| {
    report.count > 1 && of_kaiser(ticket, |beta| beta > 713.0)
});

const NO_SUM: Case = case!("10 by Kaiser's window", |ticket, report| {
    report.number == 10 && of_kaiser(ticket, |_| true)
});

const UNUSED: Case = case!("an unused beta that doesn't settle", |ticket, report| {
    report.is_accepted()
        && ticket
            .band()
            .is_some_and(|band| band.window < 3 && band.beta > 714.0)
});

const RATE_FIRST: Case = case!("1 before a series that doesn't settle", |ticket, report| {
    report.number == 1 && unsettled(ticket)
});

const CUTOFF_FIRST: Case = case!("2 before a series that doesn't settle", |ticket, report| {
    report.number == 2 && unsettled(ticket)
});

const COUNT_FIRST: Case = case!("6 before a series that doesn't settle", |ticket, report| {
    report.number == 6 && unsettled(ticket)
});

const BETA_FIRST: Case = case!("4 before a series that doesn't settle", |ticket, report| {
    report.number == 4 && of_kaiser(ticket, |beta| !is_settled(beta))
});

pub const KINDS: &[About] = &[
    About {
        kind: Kind::LowpassNew,
        name: "lowpass_new",
        number: 16,
        share: 12,
        refusals: &[
            (1, PLAIN),
            (2, RANGE),
            (4, PLAIN),
            (6, PLAIN),
            (7, PLAIN),
            (10, PLAIN),
            (16, PLAIN),
        ],
        totals: false,
        cases: &[
            FEWER_TERMS,
            ALL_TERMS,
            TWO_TAPS,
            ONE_TAP,
            ABOVE_713,
            NO_SUM,
            UNUSED,
            RATE_FIRST,
            CUTOFF_FIRST,
            COUNT_FIRST,
            BETA_FIRST,
            case!("a negative divisor", |_, report| report.value < 0.0),
            case!("4 at 16777216 taps", |ticket, report| {
                matches!(
                    ticket,
                    Ticket::LowpassNew {
                        taps: 0x100_0000,
                        ..
                    }
                ) && report.number == 4
            }),
        ],
    },
    About {
        kind: Kind::Lowpass,
        name: "lowpass",
        number: 17,
        share: 20,
        refusals: &[
            (1, PLAIN),
            (2, RANGE),
            (4, PLAIN),
            (6, PLAIN),
            (7, PLAIN),
            (8, LENGTH),
            (10, PLAIN),
            (16, PLAIN),
        ],
        totals: true,
        cases: &[
            FEWER_TERMS,
            ALL_TERMS,
            TWO_TAPS,
            ONE_TAP,
            ABOVE_713,
            NO_SUM,
            UNUSED,
            RATE_FIRST,
            CUTOFF_FIRST,
            COUNT_FIRST,
            BETA_FIRST,
            case!("8 before a series that doesn't settle", |ticket, report| {
                report.number == 8 && unsettled(ticket)
            }),
            case!("a negative divisor", |_, report| report.value < 0.0),
            case!("a NaN beta ignored", |ticket, report| {
                matches!(ticket, Ticket::Lowpass { band, .. } if band.beta.is_nan())
                    && report.is_accepted()
            }),
            case!("6 at 16777217 taps", |ticket, report| {
                ticket.bytes() == 8 * LARGEST_COUNT && report.number == 6
            }),
        ],
    },
];

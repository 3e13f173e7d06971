//! What the kinds of windows must meet.

use crate::kaiser::settling::{is_settled, series};
use crate::run::cases::{Case, LENGTH, PLAIN, case, written};
use crate::run::designers::Answer;
use crate::run::kinds::About;
use crate::run::tickets::{Kind, Ticket, Window};

fn of_window(ticket: &Ticket, holds: impl FnOnce(Window) -> bool) -> bool {
    ticket.window().is_some_and(holds)
}

/// Whether the ticket has whole samples, of the width of its format.
fn whole(ticket: &Ticket) -> bool {
    of_window(ticket, |window| {
        ticket.bytes().is_multiple_of(window.format.width())
    })
}

/// The samples as they are, of either format: 1 is 1 or 32767.
fn samples(answer: &Answer) -> Vec<f64> {
    let singles = answer.singles.iter().map(|&sample| f64::from(sample));
    singles
        .chain(answer.fixed.iter().map(|&sample| f64::from(sample)))
        .collect()
}

/// Whether the only sample of a window of that symmetry is as said.
fn only(ticket: &Ticket, answer: &Answer, symmetry: u64, holds: fn(f64) -> bool) -> bool {
    answer.report.count == 1
        && of_window(ticket, |window| window.symmetry == symmetry)
        && holds(samples(answer)[0])
}

const EMPTY: Case = case!("an empty buffer", |_, report| report.is_accepted()
    && report.count == 0);

const ONE_PERIODIC: Case = written!("one periodic sample", |ticket, answer| {
    only(ticket, answer, 0, |sample| sample < 100.0 && sample != 1.0)
});

const ONE_SYMMETRIC: Case = written!("one symmetric sample", |ticket, answer| {
    only(ticket, answer, 1, |sample| {
        sample == 1.0 || sample == 32767.0
    })
});

const SYMMETRY_FIRST: Case = case!("7 before a wrong length", |ticket, report| {
    report.number == 7 && !whole(ticket)
});

const LONG: Case = case!("more than 300 samples", |_, report| report.count > 300);

const BETA_LAST: Case = case!("8 before a beta that isn't taken", |ticket, report| {
    report.number == 8 && of_window(ticket, |window| window.beta().is_some_and(f64::is_nan))
});

const BETA_EMPTY: Case = case!("4 on an empty buffer", |ticket, report| report.number == 4
    && ticket.bytes() == 0);

const BETA_NEGATIVE_ZERO: Case = case!("a beta of -0", |ticket, report| {
    report.is_accepted()
        && of_window(ticket, |window| {
            window.beta().map(f64::to_bits) == Some((-0.0_f64).to_bits())
        })
});

/// Whether the beta is one for which that holds.
fn of_beta(ticket: &Ticket, holds: impl FnOnce(f64) -> bool) -> bool {
    of_window(ticket, |window| window.beta().is_some_and(holds))
}

/// Whether the beta is one that is taken, and the series there doesn't settle.
fn unsettled(ticket: &Ticket) -> bool {
    of_beta(ticket, |beta| {
        beta > 0.0 && beta.is_finite() && !is_settled(beta)
    })
}

const FEWER_TERMS: Case = case!(
    "16 by a series of fewer than 500 terms",
    |ticket, report| { report.number == 16 && of_beta(ticket, |beta| series(beta).terms < 500) }
);

const ALL_TERMS: Case = case!("16 by a series of 500 terms", |ticket, report| {
    report.number == 16 && of_beta(ticket, |beta| series(beta).terms == 500)
});

const ONE_UNSETTLED: Case = case!("16 at one periodic sample", |ticket, report| {
    report.number == 16 && of_window(ticket, |window| ticket.bytes() == window.format.width())
});

const ONE_EXEMPT: Case = case!(
    "one symmetric sample of a beta that doesn't settle",
    |ticket, report| report.count == 1 && unsettled(ticket)
);

const EMPTY_PERIODIC: Case = case!(
    "an empty periodic buffer for a beta that doesn't settle",
    |ticket, report| report.is_accepted() && unsettled(ticket) && is_empty(ticket, 0)
);

const EMPTY_SYMMETRIC: Case = case!(
    "an empty symmetric buffer for a beta that doesn't settle",
    |ticket, report| report.is_accepted() && unsettled(ticket) && is_empty(ticket, 1)
);

/// Whether the buffer is empty and the window of that symmetry.
fn is_empty(ticket: &Ticket, symmetry: u64) -> bool {
    ticket.bytes() == 0 && of_window(ticket, |window| window.symmetry == symmetry)
}

const ABOVE_713: Case = case!("samples of a beta above 713", |ticket, report| {
    report.count > 1 && of_beta(ticket, |beta| beta > 713.0)
});

const SYMMETRY_BEFORE: Case = case!("7 before a series that doesn't settle", |ticket, report| {
    report.number == 7 && unsettled(ticket)
});

const LENGTH_BEFORE: Case = case!("8 before a series that doesn't settle", |ticket, report| {
    report.number == 8 && unsettled(ticket)
});

const BETA_BEFORE: Case = case!("4 before a series that doesn't settle", |ticket, report| {
    report.number == 4 && of_beta(ticket, |beta| !is_settled(beta))
});

pub const KINDS: &[About] = &[
    About {
        kind: Kind::HannF32,
        name: "hann_f32",
        number: 42,
        share: 4,
        refusals: &[(7, PLAIN), (8, LENGTH)],
        totals: false,
        cases: &[
            EMPTY,
            ONE_PERIODIC,
            ONE_SYMMETRIC,
            SYMMETRY_FIRST,
            LONG,
            written!("1 in the middle", |_, answer| answer.singles.len() > 2
                && answer.singles.contains(&1.0)),
        ],
    },
    About {
        kind: Kind::HannQ15,
        name: "hann_q15",
        number: 43,
        share: 4,
        refusals: &[(7, PLAIN), (8, LENGTH)],
        totals: false,
        cases: &[
            EMPTY,
            ONE_PERIODIC,
            ONE_SYMMETRIC,
            SYMMETRY_FIRST,
            LONG,
            written!("1 in the middle held to 32767", |_, answer| {
                answer.fixed.len() > 2 && answer.fixed.contains(&32767)
            }),
        ],
    },
    About {
        kind: Kind::BlackmanHarrisF32,
        name: "blackman_harris_f32",
        number: 44,
        share: 4,
        refusals: &[(7, PLAIN), (8, LENGTH)],
        totals: false,
        cases: &[EMPTY, ONE_PERIODIC, ONE_SYMMETRIC, SYMMETRY_FIRST, LONG],
    },
    About {
        kind: Kind::BlackmanHarrisQ15,
        name: "blackman_harris_q15",
        number: 45,
        share: 4,
        refusals: &[(7, PLAIN), (8, LENGTH)],
        totals: false,
        cases: &[EMPTY, ONE_PERIODIC, ONE_SYMMETRIC, SYMMETRY_FIRST, LONG],
    },
    About {
        kind: Kind::KaiserF32,
        name: "kaiser_f32",
        number: 46,
        share: 5,
        refusals: &[(4, PLAIN), (7, PLAIN), (8, LENGTH), (16, PLAIN)],
        totals: false,
        cases: &[
            EMPTY,
            ONE_PERIODIC,
            ONE_SYMMETRIC,
            SYMMETRY_FIRST,
            LONG,
            BETA_LAST,
            BETA_EMPTY,
            BETA_NEGATIVE_ZERO,
            FEWER_TERMS,
            ALL_TERMS,
            ONE_UNSETTLED,
            ONE_EXEMPT,
            EMPTY_PERIODIC,
            EMPTY_SYMMETRIC,
            ABOVE_713,
            SYMMETRY_BEFORE,
            LENGTH_BEFORE,
            BETA_BEFORE,
            written!("a subnormal sample", |_, answer| {
                answer.singles.iter().any(|sample| sample.is_subnormal())
            }),
        ],
    },
    About {
        kind: Kind::KaiserQ15,
        name: "kaiser_q15",
        number: 47,
        share: 5,
        refusals: &[(4, PLAIN), (7, PLAIN), (8, LENGTH), (16, PLAIN)],
        totals: false,
        cases: &[
            EMPTY,
            ONE_PERIODIC,
            ONE_SYMMETRIC,
            SYMMETRY_FIRST,
            LONG,
            BETA_LAST,
            BETA_EMPTY,
            BETA_NEGATIVE_ZERO,
            FEWER_TERMS,
            ALL_TERMS,
            ONE_UNSETTLED,
            ONE_EXEMPT,
            EMPTY_PERIODIC,
            EMPTY_SYMMETRIC,
            ABOVE_713,
            SYMMETRY_BEFORE,
            LENGTH_BEFORE,
            BETA_BEFORE,
        ],
    },
];

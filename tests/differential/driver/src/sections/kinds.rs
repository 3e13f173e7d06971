//! What the kinds of sections, Butterworth filters and pre-emphasis must meet.

use crate::run::cases::{LENGTH, PLAIN, RANGE, case, written};
use crate::run::designers::Answer;
use crate::run::kinds::About;
use crate::run::report::Report;
use crate::run::tickets::{Cascade, Kind, Section, Ticket};
use crate::sections::odd::is_odd;

fn of_section(ticket: &Ticket, holds: impl FnOnce(Section) -> bool) -> bool {
    ticket.section().is_some_and(holds)
}

fn of_cascade(ticket: &Ticket, holds: impl FnOnce(Cascade) -> bool) -> bool {
    ticket.cascade().is_some_and(holds)
}

/// The time constant and the rate.
fn of_preemphasis(ticket: &Ticket, holds: impl FnOnce(f64, f64) -> bool) -> bool {
    ticket
        .preemphasis()
        .is_some_and(|(tau, rate)| holds(tau, rate))
}

/// Whether a Butterworth filter of this order is accepted, with five numbers for each two poles and
/// for one left over.
fn is_order(ticket: &Ticket, report: &Report, order: u64) -> bool {
    report.is_accepted()
        && report.count == 5 * order.div_ceil(2)
        && of_cascade(ticket, |cascade| cascade.order == order)
}

/// The last section of an accepted filter of odd order with this response.
fn first_order(ticket: &Ticket, answer: &Answer, response: u64) -> Option<[f64; 5]> {
    let asked = of_cascade(ticket, |cascade| {
        cascade.response == response && is_odd(&cascade)
    });
    answer.taps.last_chunk().copied().filter(|_| asked)
}

fn is_rate(rate: f64) -> bool {
    rate > 0.0 && rate < f64::INFINITY
}

pub const KINDS: &[About] = &[
    About {
        kind: Kind::BiquadCoefs,
        name: "biquad_coefs",
        number: 35,
        share: 8,
        refusals: &[(2, RANGE), (5, RANGE), (7, PLAIN), (8, LENGTH)],
        totals: false,
        cases: &[
            case!("a low-pass", |ticket, report| report.is_accepted()
                && of_section(ticket, |section| section.response == 0)),
            case!("a high-pass", |ticket, report| report.is_accepted()
                && of_section(ticket, |section| section.response == 1)),
            case!("a band-pass", |ticket, report| report.is_accepted()
                && of_section(ticket, |section| section.response == 2)),
            case!("a notch", |ticket, report| report.is_accepted()
                && of_section(ticket, |section| section.response == 3)),
            written!("five NaN", |_, answer| {
                answer.taps.len() == 5 && answer.taps.iter().all(|number| number.is_nan())
            }),
            written!("a NaN a2 alone", |_, answer| {
                let nan = answer.taps.iter().map(|number| number.is_nan());
                nan.eq([false, false, false, false, true])
            }),
            case!("7 before a wrong length", |ticket, report| report.number
                == 7
                && ticket.bytes() != 40),
            case!("8 before a rate that isn't taken", |ticket, report| {
                report.number == 8 && of_section(ticket, |section| !is_rate(section.rate))
            }),
            case!("8 by one byte too many", |_, report| report.number == 8
                && report.given == 41),
            case!("8 by whole numbers", |_, report| report.number == 8
                && report.given == 48),
            case!("2 at half the rate", |_, report| report.number == 2
                && report.offered > 0.0
                && report.offered == report.largest),
            case!("2 by an infinite rate", |ticket, report| {
                report.number == 2
                    && report.largest == f64::INFINITY
                    && of_section(ticket, |section| section.centre > 0.0)
            }),
            case!("2 by a negative rate", |_, report| report.number == 2
                && report.largest < 0.0),
            case!("2 by a NaN rate", |_, report| report.number == 2
                && report.largest.is_nan()
                && report.offered > 0.0),
            case!("2 where the quality is wrong too", |ticket, report| {
                report.number == 2 && of_section(ticket, |section| section.q.is_nan())
            }),
            case!("just below half the rate", |ticket, report| {
                report.is_accepted()
                    && of_section(ticket, |section| {
                        section.centre.to_bits() + 1 == (section.rate / 2.0).to_bits()
                    })
            }),
            case!("5 by a zero", |_, report| report.number == 5
                && report.offered == 0.0),
            case!("5 by an infinity", |_, report| report.number == 5
                && report.offered == f64::INFINITY),
            case!("5 by a NaN", |_, report| report.number == 5
                && report.offered.is_nan()),
        ],
    },
    About {
        kind: Kind::ButterworthSos,
        name: "butterworth_sos",
        number: 36,
        // Of the orders drawn 4 of 7 are the Rust's.
        share: 11,
        refusals: &[(2, RANGE), (6, PLAIN), (7, PLAIN), (8, LENGTH)],
        totals: false,
        cases: &[
            case!("order 2", |ticket, report| is_order(ticket, report, 2)),
            case!("order 3", |ticket, report| is_order(ticket, report, 3)),
            case!("order 4", |ticket, report| is_order(ticket, report, 4)),
            case!("order 5", |ticket, report| is_order(ticket, report, 5)),
            case!("order 6", |ticket, report| is_order(ticket, report, 6)),
            case!("order 7", |ticket, report| is_order(ticket, report, 7)),
            case!("order 8", |ticket, report| is_order(ticket, report, 8)),
            case!("a low-pass", |ticket, report| report.is_accepted()
                && of_cascade(ticket, |cascade| cascade.response == 0)),
            case!("a high-pass", |ticket, report| report.is_accepted()
                && of_cascade(ticket, |cascade| cascade.response == 1)),
            written!("NaN numbers", |_, answer| {
                answer.taps.iter().any(|number| number.is_nan())
            }),
            written!("a low-pass's first order of NaN", |ticket, answer| {
                first_order(ticket, answer, 0).is_some_and(|last| {
                    let nan = last.map(|number| number.is_nan());
                    nan == [true, true, false, true, false]
                })
            }),
            written!(
                "a low-pass's pole on the circle under its zero",
                |ticket, answer| {
                    first_order(ticket, answer, 0) == Some([1.0, 1.0, 0.0, 1.0, 0.0])
                }
            ),
            written!("a high-pass's pole on the circle", |ticket, answer| {
                first_order(ticket, answer, 1).is_some_and(|last| last[3] == 1.0)
            }),
            written!(
                "a high-pass's pole on the circle under its zero",
                |ticket, answer| {
                    first_order(ticket, answer, 1) == Some([1.0, -1.0, 0.0, -1.0, 0.0])
                }
            ),
            written!("a pole of 0", |ticket, answer| {
                first_order(ticket, answer, 0).is_some_and(|last| last[3] == 0.0)
            }),
            case!("7 before a length in bytes", |ticket, report| {
                report.number == 7 && ticket.bytes() % 8 != 0
            }),
            case!(
                "8 in bytes before a band-pass is refused",
                |ticket, report| {
                    report.number == 8
                        && ticket.bytes() % 8 != 0
                        && of_cascade(ticket, |cascade| cascade.response == 2)
                }
            ),
            case!("7 by a band-pass", |ticket, report| report.number == 7
                && of_cascade(ticket, |cascade| cascade.response == 2)),
            case!("7 by a notch", |ticket, report| report.number == 7
                && of_cascade(ticket, |cascade| cascade.response == 3)),
            case!("7 by a notch before the order", |ticket, report| {
                report.number == 7
                    && of_cascade(ticket, |cascade| {
                        cascade.response == 3 && !(2..=8).contains(&cascade.order)
                    })
            }),
            case!("7 by a notch of odd order", |ticket, report| {
                report.number == 7
                    && of_cascade(ticket, |cascade| {
                        cascade.response == 3 && [3, 5, 7].contains(&cascade.order)
                    })
            }),
            case!("6 by an order of 1", |ticket, report| report.number == 6
                && of_cascade(ticket, |cascade| cascade.order == 1)),
            case!("6 by an order of 9", |ticket, report| report.number == 6
                && of_cascade(ticket, |cascade| cascade.order == 9)),
            case!("6 by an order of 0", |ticket, report| report.number == 6
                && of_cascade(ticket, |cascade| cascade.order == 0)),
            case!("6 by an order of 10", |ticket, report| report.number == 6
                && of_cascade(ticket, |cascade| cascade.order == 10)),
            case!("8 by numbers that aren't sections", |ticket, report| {
                report.number == 8 && ticket.bytes() % 8 == 0 && report.given % 5 != 0
            }),
            case!("8 by another number of sections", |ticket, report| {
                report.number == 8 && ticket.bytes() % 40 == 0
            }),
            case!("8 by an odd order's last section", |ticket, report| {
                report.number == 8
                    && report.expected == report.given + 5
                    && of_cascade(ticket, |cascade| cascade.order % 2 == 1)
            }),
            case!(
                "8 in numbers before a rate that isn't taken",
                |ticket, report| {
                    report.number == 8
                        && ticket.bytes() % 8 == 0
                        && of_cascade(ticket, |cascade| !is_rate(cascade.rate))
                }
            ),
            case!("2 by a rate that isn't taken", |ticket, report| report
                .number
                == 2
                && of_cascade(ticket, |cascade| !is_rate(cascade.rate))),
            case!("2 at half the rate", |_, report| report.number == 2
                && report.offered > 0.0
                && report.offered == report.largest),
        ],
    },
    About {
        kind: Kind::PreemphasisCoefs,
        name: "preemphasis_coefs",
        number: 37,
        share: 4,
        refusals: &[(1, RANGE), (5, RANGE), (8, LENGTH)],
        totals: false,
        cases: &[
            written!("three NaN", |_, answer| {
                answer.taps.len() == 3 && answer.taps.iter().all(|number| number.is_nan())
            }),
            written!("the pole's time constant lost", |_, answer| {
                answer.taps.last() == Some(&1.0)
            }),
            case!("a time constant of 0.001", |ticket, report| {
                report.is_accepted() && of_preemphasis(ticket, |tau, _| tau == 1e-3)
            }),
            case!("a rate of 40000", |ticket, report| {
                report.is_accepted() && of_preemphasis(ticket, |_, rate| rate == 40_000.0)
            }),
            case!("5 just above 0.001", |_, report| report.number == 5
                && report.offered > 1e-3
                && report.offered < 1.000_001e-3),
            case!("5 by a zero", |_, report| report.number == 5
                && report.offered == 0.0),
            case!("5 by a NaN", |_, report| report.number == 5
                && report.offered.is_nan()),
            case!("5 where the rate is wrong too", |ticket, report| {
                report.number == 5 && of_preemphasis(ticket, |_, rate| rate < 40_000.0)
            }),
            case!("1 just below 40000", |_, report| report.number == 1
                && report.offered > 39_999.99),
            case!("1 by an infinity", |_, report| report.number == 1
                && report.offered == f64::INFINITY),
            case!("1 by a NaN", |_, report| report.number == 1
                && report.offered.is_nan()),
            case!(
                "8 before a time constant that isn't taken",
                |ticket, report| {
                    report.number == 8 && of_preemphasis(ticket, |tau, _| tau.is_nan())
                }
            ),
            case!("8 by whole numbers", |_, report| report.number == 8
                && report.given == 32),
        ],
    },
];

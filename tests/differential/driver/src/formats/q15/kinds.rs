//! What the kinds of conversions to Q15 must meet.

use crate::run::cases::{ELEMENT, LENGTH, case, of_source};
use crate::run::kinds::About;
use crate::run::tickets::{Kind, Ticket};

pub const KINDS: &[About] = &[
    About {
        kind: Kind::Q15FromF64,
        name: "q15_from_f64",
        number: 29,
        share: 8,
        refusals: &[],
        totals: false,
        cases: &[
            case!("a NaN", |ticket, _| {
                matches!(ticket, Ticket::Q15FromF64 { x } if x.is_nan())
            }),
            case!("32767", |_, report| report.value == 32767.0),
            case!("-32768", |_, report| report.value == -32768.0),
        ],
    },
    About {
        kind: Kind::Q15Tap,
        name: "q15_tap",
        number: 30,
        share: 8,
        refusals: &[(11, ELEMENT)],
        totals: false,
        cases: &[
            case!("a NaN refused", |_, report| report.offered.is_nan()),
            case!("an infinity refused", |_, report| report
                .offered
                .is_infinite()),
            case!("the limit taken", |ticket, report| {
                matches!(ticket, Ticket::Q15Tap { tap } if tap.to_bits() == 0x3FF0_28D5_70A3_D70A)
                    && report.value == 32767.0
            }),
            case!("the number after the limit refused", |_, report| {
                report.offered.to_bits() == 0x3FF0_28D5_70A3_D70B
            }),
        ],
    },
    About {
        kind: Kind::ToQ15,
        name: "to_q15",
        number: 31,
        share: 12,
        refusals: &[(8, LENGTH), (11, ELEMENT)],
        totals: false,
        cases: &[
            case!("8 by the source's bytes", |ticket, report| {
                report.number == 8 && of_source(ticket, |source| source.rest > 0)
            }),
            case!(
                "8 by the source's bytes before the destination's",
                |ticket, report| {
                    report.number == 8
                        && ticket.bytes() % 2 == 1
                        && of_source(ticket, |source| {
                            source.rest > 0 && source.length() == report.given
                        })
                }
            ),
            case!("8 by the destination's bytes", |ticket, report| {
                report.number == 8
                    && ticket.bytes() % 2 == 1
                    && of_source(ticket, |source| source.rest == 0)
            }),
            case!("8 in elements", |ticket, report| {
                report.number == 8
                    && ticket.bytes() % 2 == 0
                    && of_source(ticket, |source| source.rest == 0)
            }),
            case!("8 before an element that isn't taken", |ticket, report| {
                report.number == 8
                    && of_source(ticket, |source| source.elements.iter().any(|x| x.is_nan()))
            }),
            case!("11 at element 0", |_, report| report.number == 11
                && report.index == 0),
            case!("11 at the last of many", |ticket, report| {
                report.number == 11
                    && report.index > 5
                    && of_source(ticket, |source| {
                        source.elements.len() as u64 == report.index + 1
                    })
            }),
            case!("11 in the middle of many", |ticket, report| {
                report.number == 11
                    && report.index > 5
                    && of_source(ticket, |source| {
                        source.elements.len() as u64 > report.index + 5
                    })
            }),
            case!("nothing converted", |_, report| report.is_accepted()
                && report.count == 0),
        ],
    },
];

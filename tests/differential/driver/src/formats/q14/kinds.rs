//! What the kinds of conversions to Q14 must meet.

use crate::formats::cases::{
    BY_DESTINATION, BY_DESTINATION_FIRST, BY_SECTIONS, BY_SECTIONS_FIRST, BY_SOURCE,
    BY_SOURCE_FIRST, IN_NUMBERS, IN_OTHER_SECTIONS, NOTHING, refused,
};
use crate::formats::q14::inputs::{BEYOND, FIRST, LARGEST};
use crate::run::cases::{ELEMENT, LENGTH, case, of_source, written};
use crate::run::draw::neighbour;
use crate::run::kinds::About;
use crate::run::tickets::{Kind, Ticket};

pub const KINDS: &[About] = &[
    About {
        kind: Kind::Q14FromF64,
        name: "q14_from_f64",
        number: 38,
        share: 5,
        refusals: &[(11, ELEMENT)],
        totals: false,
        cases: &[
            case!("-2 - 2^-15 taken", |ticket, report| {
                matches!(ticket, Ticket::Q14FromF64 { x } if *x == FIRST)
                    && report.value == -32768.0
            }),
            case!("just below -2 - 2^-15 refused", |_, report| {
                report.offered == neighbour(FIRST, -1)
            }),
            case!("2 - 2^-15 refused", |_, report| report.offered == BEYOND),
            case!("just below 2 - 2^-15 taken", |ticket, report| {
                matches!(ticket, Ticket::Q14FromF64 { x } if *x == neighbour(BEYOND, -1))
                    && report.value == 32767.0
            }),
            case!("2 - 2^-14 taken", |ticket, _| {
                matches!(ticket, Ticket::Q14FromF64 { x } if *x == LARGEST)
            }),
            case!("a NaN refused", |_, report| report.offered.is_nan()),
            case!("an infinity refused", |_, report| report
                .offered
                .is_infinite()),
            case!("-0", |ticket, _| {
                matches!(ticket, Ticket::Q14FromF64 { x } if *x == 0.0 && x.is_sign_negative())
            }),
        ],
    },
    About {
        kind: Kind::ToQ14,
        name: "to_q14",
        number: 39,
        share: 8,
        refusals: &[(8, LENGTH), (11, ELEMENT)],
        totals: false,
        cases: &[
            BY_SOURCE,
            BY_SOURCE_FIRST,
            BY_DESTINATION,
            BY_DESTINATION_FIRST,
            BY_SECTIONS,
            BY_SECTIONS_FIRST,
            IN_NUMBERS,
            IN_OTHER_SECTIONS,
            NOTHING,
            case!("8 before an element that isn't taken", |ticket, report| {
                refused(ticket, report, [true, true])
                    && of_source(ticket, |source| source.elements.iter().any(|x| x.is_nan()))
            }),
            case!("11 at element 0", |_, report| report.number == 11
                && report.index == 0),
            case!("11 at the last element of a section", |_, report| {
                report.number == 11 && report.index == 4
            }),
            case!("11 at the last of many", |ticket, report| {
                report.number == 11
                    && report.index > 5
                    && of_source(ticket, |source| {
                        source.elements.len() as u64 == report.index + 1
                    })
            }),
            case!("11 in the middle of many", |ticket, report| {
                report.number == 11
                    && report.index > 5
                    && of_source(ticket, |source| {
                        source.elements.len() as u64 > report.index + 5
                    })
            }),
            case!("11 by a NaN", |_, report| report.offered.is_nan()),
            written!("-2 - 2^-15 taken", |ticket, answer| {
                of_source(ticket, |source| {
                    let mut pairs = source.elements.iter().zip(&answer.fixed);
                    pairs.any(|(&x, &number)| x == FIRST && number == -32768)
                })
            }),
        ],
    },
];

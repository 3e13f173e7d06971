//! What the series, Kaiser's formulas and half samples of delay must meet.

use crate::run::cases::{PLAIN, RANGE, case};
use crate::run::kinds::About;
use crate::run::tickets::{Kind, LARGEST_COUNT, Ticket};

pub const KINDS: &[About] = &[
    About {
        kind: Kind::BesselI0,
        name: "bessel_i0",
        number: 11,
        share: 8,
        refusals: &[(16, PLAIN)],
        totals: false,
        cases: &[
            case!("one term", |_, report| report.count == 1),
            case!("a sum next to the largest", |_, report| {
                report.is_accepted() && report.value > 1.797e308
            }),
            case!("16 after 500 terms", |_, report| report.number == 16
                && report.count == 500),
            case!("16 by an infinite sum of fewer terms", |_, report| {
                report.number == 16 && report.count < 500 && report.value.is_infinite()
            }),
            case!("16 by a negative number", |ticket, report| {
                report.number == 16 && matches!(ticket, Ticket::BesselI0 { x } if *x < 0.0)
            }),
            case!("16 by a NaN", |_, report| report.number == 16
                && report.value.is_nan()),
        ],
    },
    About {
        kind: Kind::KaiserBeta,
        name: "kaiser_beta",
        number: 12,
        share: 8,
        refusals: &[],
        totals: false,
        cases: &[
            case!("0", |_, report| report.value == 0.0),
            case!("an infinite beta", |_, report| report.value.is_infinite()),
            case!("from 21 to 50", |_, report| report.value > 0.0
                && report.value < 4.5),
            case!("above 50", |_, report| report.value > 4.6),
        ],
    },
    About {
        kind: Kind::Kaiserord,
        name: "kaiserord",
        number: 13,
        share: 12,
        refusals: &[(3, PLAIN), (3, RANGE), (4, PLAIN)],
        totals: false,
        cases: &[
            case!("one tap", |_, report| report.count == 1),
            case!("16777217 taps", |_, report| report.count == LARGEST_COUNT),
            case!("two negative signs accepted", |ticket, report| {
                matches!(ticket, Ticket::Kaiserord { rate, .. } if *rate < 0.0)
                    && report.is_accepted()
            }),
            case!("a negative largest value", |_, report| report.largest < 0.0),
        ],
    },
    About {
        kind: Kind::HalfbandLen,
        name: "halfband_len",
        number: 14,
        share: 8,
        refusals: &[(3, PLAIN), (3, RANGE), (4, PLAIN)],
        totals: false,
        cases: &[
            case!("3 taps", |_, report| report.count == 3),
            case!("16777219 taps", |_, report| report.count
                == LARGEST_COUNT + 2),
        ],
    },
    About {
        kind: Kind::Delay,
        name: "delay",
        number: 15,
        share: 4,
        refusals: &[(6, PLAIN)],
        totals: false,
        cases: &[case!("the largest count", |_, report| report.count
            == u64::MAX - 1)],
    },
];

//! What the kinds of conversions to f32 must meet.

use crate::formats::cases::{
    BY_DESTINATION, BY_DESTINATION_FIRST, BY_SECTIONS, BY_SECTIONS_FIRST, BY_SOURCE,
    BY_SOURCE_FIRST, IN_NUMBERS, IN_OTHER_SECTIONS, NOTHING,
};
use crate::formats::singles::inputs::{OVERFLOW, UNDERFLOW};
use crate::run::cases::{Case, LENGTH, case, of_source, written};
use crate::run::designers::Answer;
use crate::run::draw::neighbour;
use crate::run::kinds::About;
use crate::run::tickets::{Kind, Ticket};

/// Whether one of the numbers and the f32 that it became are as said.
fn some(ticket: &Ticket, answer: &Answer, holds: fn(f64, f32) -> bool) -> bool {
    of_source(ticket, |source| {
        let mut pairs = source.elements.iter().zip(&answer.singles);
        pairs.any(|(&x, &single)| holds(x, single))
    })
}

/// The f32 on the other side of the number, if it isn't one itself; none is infinite.
fn other(x: f64, single: f32) -> Option<f64> {
    let near = f64::from(single);
    let other = if near < x {
        single.next_up()
    } else {
        single.next_down()
    };
    (near != x && near.is_finite() && other.is_finite()).then(|| f64::from(other))
}

/// Whether the number is in the middle of the f32 that it became and another, which is `above` it
/// or below.
fn tied(x: f64, single: f32, above: bool) -> bool {
    other(x, single).is_some_and(|other| (other > x) == above && other - x == x - f64::from(single))
}

const TIE_BELOW: Case = written!("a tie to the f32 below", |ticket, answer| {
    some(ticket, answer, |x, single| {
        single.is_normal() && tied(x, single, true)
    })
});

const TIE_ABOVE: Case = written!("a tie to the f32 above", |ticket, answer| {
    some(ticket, answer, |x, single| {
        single.is_normal() && tied(x, single, false)
    })
});

const SUBNORMAL: Case = written!("a subnormal f32", |ticket, answer| {
    some(ticket, answer, |_, single| single.is_subnormal())
});

const SUBNORMAL_TIE_BELOW: Case = written!("a tie to the subnormal f32 below", |ticket, answer| {
    some(ticket, answer, |x, single| {
        single.is_subnormal() && tied(x, single, true)
    })
});

const SUBNORMAL_TIE_ABOVE: Case = written!("a tie to the subnormal f32 above", |ticket, answer| {
    some(ticket, answer, |x, single| {
        single.is_subnormal() && tied(x, single, false)
    })
});

const TO_SMALLEST_NORMAL: Case = written!("a tie to the smallest normal f32", |ticket, answer| {
    some(ticket, answer, |x, single| {
        single == f32::MIN_POSITIVE && x < f64::from(single)
    })
});

const LAST_ZERO: Case = written!("half the smallest f32 to 0", |ticket, answer| {
    some(ticket, answer, |x, single| x == UNDERFLOW && single == 0.0)
});

const NO_ZERO: Case = written!("just above half the smallest f32", |ticket, answer| {
    some(ticket, answer, |x, single| {
        x == neighbour(UNDERFLOW, 1) && single.to_bits() == 1
    })
});

const OVERFLOWING: Case = written!("2^128 - 2^103 to an infinity", |ticket, answer| {
    some(ticket, answer, |x, single| {
        x == OVERFLOW && single == f32::INFINITY
    })
});

const NO_OVERFLOW: Case = written!("just below 2^128 - 2^103", |ticket, answer| {
    some(ticket, answer, |x, single| {
        x == neighbour(OVERFLOW, -1) && single == f32::MAX
    })
});

const NAN: Case = written!("a NaN", |ticket, answer| {
    some(ticket, answer, |_, single| single.is_nan())
});

const NEGATIVE_ZERO: Case = written!("a negative zero", |ticket, answer| {
    some(ticket, answer, |x, _| x == 0.0 && x.is_sign_negative())
});

const TO_NEGATIVE_ZERO: Case = written!("a negative number to 0", |ticket, answer| {
    some(ticket, answer, |x, single| {
        x < 0.0 && single == 0.0 && single.is_sign_negative()
    })
});

pub const KINDS: &[About] = &[
    About {
        kind: Kind::ToF32,
        name: "to_f32",
        number: 40,
        share: 8,
        refusals: &[(8, LENGTH)],
        totals: false,
        cases: &[
            BY_SOURCE,
            BY_SOURCE_FIRST,
            BY_DESTINATION,
            IN_NUMBERS,
            NOTHING,
            TIE_BELOW,
            TIE_ABOVE,
            SUBNORMAL,
            SUBNORMAL_TIE_BELOW,
            SUBNORMAL_TIE_ABOVE,
            TO_SMALLEST_NORMAL,
            LAST_ZERO,
            NO_ZERO,
            OVERFLOWING,
            NO_OVERFLOW,
            NAN,
            NEGATIVE_ZERO,
            TO_NEGATIVE_ZERO,
            case!("a number of elements that isn't sections", |_, report| {
                report.is_accepted() && report.count % 5 != 0
            }),
        ],
    },
    About {
        kind: Kind::ToF32Sos,
        name: "to_f32_sos",
        number: 41,
        share: 5,
        refusals: &[(8, LENGTH)],
        totals: false,
        cases: &[
            BY_SOURCE,
            BY_SOURCE_FIRST,
            BY_DESTINATION,
            BY_DESTINATION_FIRST,
            BY_SECTIONS,
            BY_SECTIONS_FIRST,
            IN_NUMBERS,
            IN_OTHER_SECTIONS,
            NOTHING,
            TIE_BELOW,
            TIE_ABOVE,
            SUBNORMAL,
            SUBNORMAL_TIE_BELOW,
            SUBNORMAL_TIE_ABOVE,
            OVERFLOWING,
            NO_OVERFLOW,
            NAN,
            NEGATIVE_ZERO,
        ],
    },
];

//! Why a call is refused, with what the refusal carries.

use core::fmt;

use crate::raw::{self, Report};

/// What is wrong, by the refusals' numbers.
///
/// Later versions add reasons, for numbers between these and above them, so a `match` needs an arm for the others. A
/// number that a crate doesn't know is [`Unknown`](Self::Unknown) there, and has a reason of its own in a later one: to
/// ask for such a number, compare [`number`](Self::number).
///
/// ```
/// use peldozkar::{Reason, Window, lowpass_new};
///
/// let what = match lowpass_new(5000.0, 8000.0, Window::Hann, 31) {
///     Ok(_) => "accepted",
///     Err(error) => match error.reason {
///         Reason::Rate => "the rate",
///         Reason::Frequency => "the cutoff",
///         _ => "something else",
///     },
/// };
/// assert_eq!(what, "the cutoff");
/// ```
#[derive(Clone, Copy, Debug, PartialEq, Eq, Hash)]
#[non_exhaustive]
pub enum Reason {
    /// 1: the rate.
    Rate,
    /// 2: the cutoff, the centre or a band edge.
    Frequency,
    /// 3: the transition, or a length past 2^24 taps.
    Transition,
    /// 4: the attenuation or beta.
    Attenuation,
    /// 5: the bandwidth bt, the roll-off, the quality q or the time constant.
    Shape,
    /// 6: a count: taps, order, span, samples, channels or branch.
    Count,
    /// 7: an unknown code, or a response that a Butterworth filter hasn't.
    Code,
    /// 8: the buffer's length.
    Length,
    /// 9: more taps are needed than are allowed.
    Cap,
    /// 10: the sum that the taps are divided by is 0 or not finite.
    Divisor,
    /// 11: an element that Q15 or Q14 can't take.
    Element,
    /// 12: the bytes end inside a record of a card.
    CutShort,
    /// 13: a kind of ticket that isn't 1 to 6.
    Kind,
    /// 14: the length of a card's record isn't its kind's.
    RecordLength,
    /// 16: a Bessel series of Kaiser's window doesn't settle ([`Series::settled`](crate::Series::settled)). Take a
    /// smaller beta: up to 713 every series settles, above about 714 that at beta doesn't.
    Unsettled,
    /// 17: how many coefficients a cosine window has: not 1 to 5.
    CoefficientCount,
    /// 18: a coefficient of a cosine window that isn't finite or whose size is above 1.
    Coefficient,
    /// 19: the exact sum of a cosine window's coefficients is further than 2^-40 from 1.
    CoefficientSum,
    /// A number that this crate doesn't know, none of 1 to 14 and 16 to 19: the library is newer than it.
    Unknown(u32),
}

impl Reason {
    /// The refusal's number: 1 to 14, 16 to 19, or the one that is [`Unknown`](Self::Unknown).
    ///
    /// ```
    /// assert_eq!(peldozkar::Reason::Cap.number(), 9);
    /// ```
    pub const fn number(self) -> u32 {
        match self {
            Self::Rate => raw::BAD_RATE,
            Self::Frequency => raw::BAD_FREQUENCY,
            Self::Transition => raw::BAD_TRANSITION,
            Self::Attenuation => raw::BAD_ATTENUATION,
            Self::Shape => raw::BAD_SHAPE,
            Self::Count => raw::BAD_COUNT,
            Self::Code => raw::BAD_CODE,
            Self::Length => raw::BAD_LENGTH,
            Self::Cap => raw::TOO_MANY_TAPS,
            Self::Divisor => raw::BAD_SUM,
            Self::Element => raw::BAD_ELEMENT,
            Self::CutShort => raw::CUT_SHORT,
            Self::Kind => raw::UNKNOWN_KIND,
            Self::RecordLength => raw::BAD_RECORD_LENGTH,
            Self::Unsettled => raw::NOT_SETTLED,
            Self::CoefficientCount => raw::BAD_COEFFICIENT_COUNT,
            Self::Coefficient => raw::BAD_COEFFICIENT,
            Self::CoefficientSum => raw::BAD_COEFFICIENT_SUM,
            Self::Unknown(number) => number,
        }
    }

    const fn of(number: u32) -> Self {
        match number {
            raw::BAD_RATE => Self::Rate,
            raw::BAD_FREQUENCY => Self::Frequency,
            raw::BAD_TRANSITION => Self::Transition,
            raw::BAD_ATTENUATION => Self::Attenuation,
            raw::BAD_SHAPE => Self::Shape,
            raw::BAD_COUNT => Self::Count,
            raw::BAD_CODE => Self::Code,
            raw::BAD_LENGTH => Self::Length,
            raw::TOO_MANY_TAPS => Self::Cap,
            raw::BAD_SUM => Self::Divisor,
            raw::BAD_ELEMENT => Self::Element,
            raw::CUT_SHORT => Self::CutShort,
            raw::UNKNOWN_KIND => Self::Kind,
            raw::BAD_RECORD_LENGTH => Self::RecordLength,
            raw::NOT_SETTLED => Self::Unsettled,
            raw::BAD_COEFFICIENT_COUNT => Self::CoefficientCount,
            raw::BAD_COEFFICIENT => Self::Coefficient,
            raw::BAD_COEFFICIENT_SUM => Self::CoefficientSum,
            other => Self::Unknown(other),
        }
    }

    const fn meaning(self) -> &'static str {
        match self {
            Self::Rate => "the rate can't be taken",
            Self::Frequency => "the cutoff, the centre or a band edge can't be taken",
            Self::Transition => "the transition can't be taken, or needs more than 2^24 taps",
            Self::Attenuation => "the attenuation or beta can't be taken",
            Self::Shape => {
                "the bandwidth, the roll-off, the quality or the time constant can't be taken"
            }
            Self::Count => {
                "a count of taps, orders, symbols, samples, channels or branches can't be taken"
            }
            Self::Code => "the code is unknown, or no Butterworth filter has the response",
            Self::Length => "the buffer's length is wrong",
            Self::Cap => "more taps are needed than are allowed",
            Self::Divisor => "the sum that the taps are divided by is zero or not finite",
            Self::Element => "an element doesn't fit the format",
            Self::CutShort => "the bytes end inside a record",
            Self::Kind => "the kind of ticket is unknown",
            Self::RecordLength => "the record's length isn't its kind's",
            Self::Unsettled => {
                "a Bessel series of Kaiser's window doesn't settle: take a beta of 713, or 6478 dB, at most"
            }
            Self::CoefficientCount => "a cosine window has one to five coefficients",
            Self::Coefficient => "a coefficient isn't finite, or its size is above 1",
            Self::CoefficientSum => {
                "the coefficients don't add up to 1: their exact sum may be off by 2^-40 at most"
            }
            Self::Unknown(_) => "the library is newer than this crate",
        }
    }
}

/// What a refusal carries beside its number.
///
/// Whether a limit is itself allowed is said where the function is explained. Later versions may carry more, so a
/// `match` needs an arm for the others.
#[derive(Clone, Copy, Debug, PartialEq)]
#[non_exhaustive]
pub enum Carried {
    /// The number says it all.
    Nothing,
    /// The limits, and the value that was offered.
    Range {
        /// The lower limit.
        smallest: f64,
        /// The upper limit.
        largest: f64,
        /// The value that was offered.
        offered: f64,
    },
    /// The length that a buffer must have, and the one it has, in numbers; of a ticket's record in bytes.
    Length {
        /// How many it must have.
        expected: u64,
        /// How many it has.
        given: u64,
    },
    /// The taps needed, and the taps allowed.
    Cap {
        /// How many taps are needed.
        needed: u64,
        /// How many are allowed.
        allowed: u64,
        /// How many a design can have, 2^24.
        largest: f64,
    },
    /// The first element that isn't taken.
    Element {
        /// Its index, counted in numbers from the first of all.
        index: u64,
        /// The lower limit.
        smallest: f64,
        /// The upper limit.
        largest: f64,
        /// The element.
        offered: f64,
    },
}

/// A refusal: its reason, which knows its number, and what it carries.
///
/// ```
/// use peldozkar::{Carried, Reason, Spec};
///
/// let spec = Spec { cutoff: 1000.0, transition: 100.0, attenuation: 60.0 };
/// let error = spec.num_taps(8000.0, 292).unwrap_err();
/// assert_eq!(error.number(), 9);
/// assert_eq!(error.reason, Reason::Cap);
/// assert!(matches!(error.carried, Carried::Cap { needed: 293, allowed: 292, .. }));
/// assert_eq!(
///     error.to_string(),
///     "refused with 9: more taps are needed than are allowed (needed 293, allowed 292)"
/// );
/// ```
///
/// Two refusals that carry a NaN aren't equal, as NaNs aren't.
#[derive(Clone, Copy, Debug, PartialEq)]
pub struct Error {
    /// What is wrong.
    pub reason: Reason,
    /// What is told of it.
    pub carried: Carried,
}

impl Error {
    /// The refusal's number, that of its [`Reason`].
    ///
    /// ```
    /// assert_eq!(peldozkar::delay(0).unwrap_err().number(), 6);
    /// ```
    pub const fn number(&self) -> u32 {
        self.reason.number()
    }

    const fn of(report: &Report) -> Self {
        let Report {
            smallest,
            largest,
            offered,
            expected,
            given,
            index,
            ..
        } = *report;
        let carried = match report.carries {
            raw::RANGE => Carried::Range {
                smallest,
                largest,
                offered,
            },
            raw::LENGTH => Carried::Length { expected, given },
            raw::CAP => Carried::Cap {
                needed: expected,
                allowed: given,
                largest,
            },
            raw::ELEMENT => Carried::Element {
                index,
                smallest,
                largest,
                offered,
            },
            _ => Carried::Nothing,
        };
        Self {
            reason: Reason::of(report.number),
            carried,
        }
    }
}

impl fmt::Display for Error {
    fn fmt(&self, f: &mut fmt::Formatter<'_>) -> fmt::Result {
        write!(
            f,
            "refused with {}: {}",
            self.number(),
            self.reason.meaning()
        )?;
        match self.carried {
            Carried::Nothing => Ok(()),
            Carried::Range {
                smallest,
                largest,
                offered,
            } => write!(
                f,
                " (smallest {smallest:?}, largest {largest:?}, offered {offered:?})"
            ),
            Carried::Length { expected, given } => {
                write!(f, " (expected {expected}, given {given})")
            }
            Carried::Cap {
                needed, allowed, ..
            } => write!(f, " (needed {needed}, allowed {allowed})"),
            Carried::Element {
                index,
                smallest,
                largest,
                offered,
            } => write!(
                f,
                " (index {index}, smallest {smallest:?}, largest {largest:?}, offered {offered:?})"
            ),
        }
    }
}

impl core::error::Error for Error {}

impl Report {
    /// The report of an accepted ticket, or the refusal.
    pub(crate) fn taken(self) -> Result<Self, Error> {
        if self.number == raw::ACCEPTED {
            Ok(self)
        } else {
            Err(Error::of(&self))
        }
    }

    /// The count of an accepted ticket.
    pub(crate) fn counted(self) -> Result<u64, Error> {
        self.taken().map(|report| report.count)
    }
}

//! What reading, writing, judging and designing of tickets on a card must meet.

use crate::card::{DESIGNERS, FIELDS, KAISER, LOWPASS, Reading, Slip, count_refused, fields_of};
use crate::retune::counts::{IN_BYTES, IN_TAPS, Refusal};
use crate::run::kinds::kinds;
use crate::run::report::{CARRIES, Report};

/// What reading can be refused with, what writing a ticket that was read, and what a ticket without a card besides.
pub const OF_READINGS: [Refusal; 4] = [(7, "plain"), (12, "plain"), (13, "plain"), (14, "plain")];
pub const OF_WRITINGS: [Refusal; 1] = [IN_BYTES];
pub const OF_FORGED: [Refusal; 2] = [(7, "plain"), (13, "plain")];

/// What a ticket of a card's kind can be refused with: what its designer tells, but for the code, which a card doesn't
/// let through, and for a spec's 6, which takes a buffer of 2^24 + 1 taps.
pub fn of_designs(kind: u64) -> Vec<Refusal> {
    let about = kinds().find(|about| about.kind == DESIGNERS[kind as usize - 1]);
    let about = about.expect("every kind is in the table");
    let mut all = vec![IN_BYTES, IN_TAPS];
    for &(number, carries) in about.refusals {
        if number != 7 && number != 8 && (kind, number) != (2, 6) {
            all.push((number, CARRIES[carries as usize]));
        }
    }
    all
}

/// A record that was read, with all that follows it, and what it came to.
pub struct Seen<'a> {
    pub bytes: &'a [u8],
    pub reading: Reading,
}

impl Seen<'_> {
    fn number(&self) -> u32 {
        self.reading.report.number
    }

    fn length(&self) -> Option<u32> {
        self.bytes
            .first_chunk()
            .map(|bytes| u32::from_le_bytes(*bytes))
    }

    fn kind(&self) -> Option<u64> {
        let kind = self.bytes.get(4..)?.first_chunk()?;
        Some(u64::from(u16::from_le_bytes(*kind)))
    }

    fn field(&self, place: usize) -> Option<u64> {
        let field = self.bytes.get(6 + 8 * place..)?.first_chunk()?;
        Some(u64::from_le_bytes(*field))
    }

    /// Whether the record is a low-pass's whose window there isn't.
    fn has_bad_window(&self) -> bool {
        self.kind() == Some(LOWPASS) && self.field(2).is_some_and(|window| window > KAISER)
    }

    /// Whether no kind has the length.
    fn has_odd_length(&self) -> bool {
        self.length()
            .is_some_and(|length| ![18, 26, 42].contains(&length))
    }

    /// Whether there are fewer bytes than the kind takes.
    fn is_short(&self) -> bool {
        self.kind()
            .and_then(fields_of)
            .is_some_and(|fields| self.bytes.len() < 6 + 8 * fields.len())
    }
}

/// A case that the cards must meet and that a refusal's number doesn't tell apart.
pub struct Case<T> {
    pub what: &'static str,
    pub met: T,
}

type OfReading = fn(&Seen) -> bool;
type OfWriting = fn(&Wrote) -> bool;
type OfDesign = fn(&Design) -> bool;

pub const READINGS: [Case<OfReading>; 13] = [
    Case {
        what: "records with others behind them",
        met: |seen| seen.reading.report.is_accepted() && seen.bytes.len() > 60,
    },
    Case {
        what: "betas dropped",
        met: |seen| {
            let slip = seen.reading.slip;
            slip.kind == LOWPASS
                && slip.fields[3] == 0
                && seen.field(3).is_some_and(|beta| beta != 0)
        },
    },
    Case {
        what: "signalling NaNs kept",
        met: |seen| {
            let fields = seen.reading.slip.fields;
            fields
                .iter()
                .any(|&word| f64::from_bits(word).is_nan() && word & 1 << 51 == 0)
        },
    },
    Case {
        what: "12 in the head",
        met: |seen| seen.number() == 12 && seen.bytes.len() < 6,
    },
    Case {
        what: "12 in the body",
        met: |seen| seen.number() == 12 && seen.bytes.len() >= 6,
    },
    Case {
        what: "12 short of one byte",
        met: |seen| seen.number() == 12 && seen.length() == Some(seen.bytes.len() as u32 - 3),
    },
    Case {
        what: "12 with a window above 3",
        met: |seen| seen.number() == 12 && seen.has_bad_window(),
    },
    Case {
        what: "13 with a length that no kind has",
        met: |seen| seen.number() == 13 && seen.has_odd_length(),
    },
    Case {
        what: "13 of six bytes",
        met: |seen| seen.number() == 13 && seen.bytes.len() == 6,
    },
    Case {
        what: "13 by the upper byte alone",
        met: |seen| {
            seen.number() == 13
                && seen
                    .kind()
                    .is_some_and(|kind| fields_of(kind % 256).is_some())
        },
    },
    Case {
        what: "14 of a short body",
        met: |seen| seen.number() == 14 && seen.is_short(),
    },
    Case {
        what: "14 with a window above 3",
        met: |seen| seen.number() == 14 && seen.has_bad_window(),
    },
    Case {
        what: "14 of 2^32 - 1 bytes",
        met: |seen| seen.number() == 14 && seen.length() == Some(u32::MAX),
    },
];

/// A ticket that was written: the bytes of its buffer, the report, and the record that it was read from, if one was.
pub struct Wrote<'a> {
    pub slip: &'a Slip,
    pub bytes: u64,
    pub report: Report,
    pub read: Option<&'a [u8]>,
}

impl Wrote<'_> {
    /// Whether the record has a beta that doesn't count and isn't zeros: that one isn't written as it was read.
    pub fn drops_beta(&self) -> bool {
        let beta = self.read.and_then(|record| record.get(30..38));
        self.slip.kind == LOWPASS
            && self.slip.fields[2] != KAISER
            && beta.is_some_and(|beta| beta != [0; 8])
    }

    /// How many bytes the record takes.
    fn own(&self) -> Option<u64> {
        fields_of(self.slip.kind).map(|fields| 6 + 8 * fields.len() as u64)
    }

    /// Whether it is refused for a buffer of so many bytes more than its record takes.
    fn is_off_by(&self, more: u64) -> bool {
        self.report.number == 8 && self.bytes == self.report.expected.wrapping_add(more)
    }
}

pub const WRITINGS: [Case<OfWriting>; 12] = [
    Case {
        what: "records written as they were read",
        met: |seen| seen.report.is_accepted() && seen.read.is_some() && !seen.drops_beta(),
    },
    Case {
        what: "betas written as zeros",
        met: |seen| seen.report.is_accepted() && seen.drops_beta(),
    },
    Case {
        what: "signalling NaNs written",
        met: |seen| {
            let mut floats = seen.slip.fields.into_iter();
            seen.report.is_accepted()
                && floats.any(|word| f64::from_bits(word).is_nan() && word & 1 << 51 == 0)
        },
    },
    Case {
        what: "8 by a byte too few",
        met: |seen| seen.is_off_by(u64::MAX),
    },
    Case {
        what: "8 by a byte too many",
        met: |seen| seen.is_off_by(1),
    },
    Case {
        what: "8 by 256 bytes too many",
        met: |seen| seen.is_off_by(256),
    },
    Case {
        what: "8 of a buffer that is another kind's record",
        met: |seen| {
            let lengths = FIELDS.map(|fields| 6 + 8 * fields.len() as u64);
            seen.report.number == 8 && lengths.contains(&seen.bytes)
        },
    },
    Case {
        what: "7 where the length is wrong too",
        met: |seen| seen.report.number == 7 && seen.own() != Some(seen.bytes),
    },
    Case {
        what: "13 where no kind has the length",
        met: |seen| seen.report.number == 13 && ![22, 30, 46].contains(&seen.bytes),
    },
    Case {
        what: "13 with a window above 3",
        met: |seen| seen.report.number == 13 && seen.slip.fields[2] > KAISER,
    },
    Case {
        what: "13 by the upper bytes of a kind alone",
        met: |seen| seen.report.number == 13 && fields_of(seen.slip.kind & 0xFFFF).is_some(),
    },
    Case {
        what: "tickets written without what their kind hasn't",
        met: |seen| {
            let width = fields_of(seen.slip.kind).map_or(0, <[_]>::len);
            seen.report.is_accepted() && seen.slip.fields[width..].iter().any(|&word| word != 0)
        },
    },
];

/// A design: the ticket, the bytes of its buffer and the report.
pub struct Design<'a> {
    pub slip: &'a Slip,
    pub bytes: u64,
    pub report: Report,
}

impl Design<'_> {
    /// Whether it is refused for a count that the buffer hasn't.
    fn is_miscounted(&self) -> bool {
        self.report.number == 8 && count_refused(self.slip, self.bytes).is_some()
    }
}

/// Whether a rate or a beta can't be taken.
fn is_bad(word: u64, least: f64) -> bool {
    let x = f64::from_bits(word);
    !(x >= least && x < f64::INFINITY)
}

pub const DESIGNS: [Case<OfDesign>; 6] = [
    Case {
        what: "8 by the count of a low-pass whose rate is bad",
        met: |seen| {
            seen.is_miscounted()
                && seen.slip.kind == LOWPASS
                && is_bad(seen.slip.fields[1], f64::MIN_POSITIVE)
        },
    },
    Case {
        what: "8 by the count of a half-band whose beta is bad",
        met: |seen| {
            seen.is_miscounted() && seen.slip.kind != LOWPASS && is_bad(seen.slip.fields[0], 0.0)
        },
    },
    Case {
        what: "8 by a count of 2^32 or more",
        met: |seen| seen.is_miscounted() && seen.report.expected >> 32 != 0,
    },
    Case {
        what: "8 by a count of which the buffer has the bytes, were the product cut to 64 bits",
        met: |seen| {
            seen.is_miscounted() && seen.report.expected.wrapping_mul(8) == 8 * seen.report.given
        },
    },
    Case {
        what: "8 in bytes with a count that isn't the buffer's",
        met: |seen| {
            seen.report.number == 8
                && seen.bytes % 8 != 0
                && count_refused(seen.slip, seen.bytes - seen.bytes % 8).is_some()
        },
    },
    Case {
        what: "windows that aren't Kaiser's with any bits for a beta",
        met: |seen| {
            let [_, _, window, beta, _] = seen.slip.fields;
            seen.slip.kind == LOWPASS
                && window < KAISER
                && is_bad(beta, 0.0)
                && seen.report.is_accepted()
        },
    },
];

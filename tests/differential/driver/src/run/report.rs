//! The report that every designer answers with: a refusal with what it carries, or the figures.

use peldozkar::raw;

/// The bits of a number, those of a NaN always the same.
pub fn bits(x: f64) -> u64 {
    if x.is_nan() {
        0x7FF8_0000_0000_0000
    } else {
        x.to_bits()
    }
}

/// The bits of an f32 in a word, those of a NaN always the same.
pub fn single_bits(x: f32) -> u64 {
    u64::from(if x.is_nan() { 0x7FC0_0000 } else { x.to_bits() })
}

/// What a refusal carries beside its number, as its code's place in this row.
pub const CARRIES: [&str; 5] = ["plain", "range", "length", "cap", "element"];

/// An answer, with the fields of the C structure. Those that don't apply are 0.
#[derive(Clone, Copy, Debug, Default)]
pub struct Report {
    /// 0 where the ticket is accepted, else the refusal's number.
    pub number: u32,
    /// The place in [`CARRIES`].
    pub carries: u32,
    pub smallest: f64,
    pub largest: f64,
    pub offered: f64,
    pub expected: u64,
    pub given: u64,
    pub index: u64,
    pub count: u64,
    pub value: f64,
}

impl Report {
    pub fn accepted(count: u64, value: f64) -> Self {
        Self {
            count,
            value,
            ..Self::default()
        }
    }

    pub fn plain(number: u32) -> Self {
        Self {
            number,
            ..Self::default()
        }
    }

    pub fn range(number: u32, smallest: f64, largest: f64, offered: f64) -> Self {
        Self {
            number,
            carries: 1,
            smallest,
            largest,
            offered,
            ..Self::default()
        }
    }

    pub fn length(expected: u64, given: u64) -> Self {
        Self {
            number: 8,
            carries: 2,
            expected,
            given,
            ..Self::default()
        }
    }

    /// More taps are needed than the caller allows: both as counts, and as a range.
    pub fn cap(needed: u64, largest: f64, allowed: u64) -> Self {
        Self {
            carries: 3,
            expected: needed,
            given: allowed,
            ..Self::range(9, needed as f64, largest, allowed as f64)
        }
    }

    /// The element at an index isn't within a range.
    pub fn element(index: u64, smallest: f64, largest: f64, offered: f64) -> Self {
        Self {
            carries: 4,
            index,
            ..Self::range(11, smallest, largest, offered)
        }
    }

    pub fn is_accepted(&self) -> bool {
        self.number == 0
    }

    /// All fields in their order, numbers by their bits.
    pub fn words(&self) -> [u64; 10] {
        [
            u64::from(self.number),
            u64::from(self.carries),
            bits(self.smallest),
            bits(self.largest),
            bits(self.offered),
            self.expected,
            self.given,
            self.index,
            self.count,
            bits(self.value),
        ]
    }

    /// Whether every field is the same, any NaN being the same as any other.
    pub fn same(&self, other: &Self) -> bool {
        self.words() == other.words()
    }
}

/// The port's answer.
impl From<raw::Report> for Report {
    fn from(report: raw::Report) -> Self {
        let raw::Report {
            number,
            carries,
            smallest,
            largest,
            offered,
            expected,
            given,
            index,
            count,
            value,
        } = report;
        Self {
            number,
            carries,
            smallest,
            largest,
            offered,
            expected,
            given,
            index,
            count,
            value,
        }
    }
}

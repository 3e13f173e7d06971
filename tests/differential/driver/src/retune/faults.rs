//! Wrong turns that the lists must notice, and such that the forged records must.
//!
//! Each gives the Rust side's answers by what the record says, with one thing changed.

use sdrk_core::window::bessel_i0;

use crate::kaiser::settling::{is_settled, series};
use crate::lowpass;
use crate::retune::{Design, KAISER, Past, Side, Tuned, Turn, forged, record_of};
use crate::run::designers::Answer;
use crate::run::draw::SMALLEST;
use crate::run::faults::{bad, write};
use crate::run::report::Report;
use crate::run::tickets::Band;

/// A wrong side in the port's place.
pub struct Fault {
    pub what: &'static str,
    pub wrong: Side,
    /// Whether the forged records must notice it, and not the lists.
    pub forged: bool,
}

/// The right one.
pub const RIGHT: Side = Side {
    design: first,
    turn: right,
};

/// The Rust's first design, with its record.
fn first(band: &Band, buffer: &mut [u8]) -> Tuned {
    let bytes = buffer.len() as u64;
    let Answer { report, taps, .. } = lowpass::filled(band, bytes);
    write(&taps, buffer);
    let design = if report.is_accepted() {
        record_of(band, bytes / 8, report.value)
    } else {
        Design::default()
    };
    Tuned { design, report }
}

/// A turn of a record, by what it says.
fn of(kept: &Design, turn: &Turn, buffer: &mut [u8]) -> Tuned {
    let expected = forged::expected(kept, turn, buffer.len() as u64);
    write(&expected.answer.taps, buffer);
    Tuned {
        design: expected.design,
        report: expected.report(),
    }
}

fn right(past: &Past, turn: &Turn, buffer: &mut [u8]) -> Tuned {
    of(&past.design, turn, buffer)
}

/// The right answer, with the record that `change` makes of the old one and the new one where the turn is accepted.
fn kept(
    past: &Past,
    turn: &Turn,
    buffer: &mut [u8],
    change: impl FnOnce(Design, Design) -> Design,
) -> Tuned {
    let tuned = right(past, turn, buffer);
    if !tuned.report.is_accepted() {
        return tuned;
    }
    Tuned {
        design: change(past.design, tuned.design),
        ..tuned
    }
}

/// The right answer, with another record where the turn is refused.
fn spoilt(past: &Past, turn: &Turn, buffer: &mut [u8], record: Design) -> Tuned {
    let tuned = right(past, turn, buffer);
    if tuned.report.is_accepted() {
        return tuned;
    }
    Tuned {
        design: record,
        ..tuned
    }
}

/// The right answer, but where it is refusal `number` and another applies too, that one.
fn swapped(
    past: &Past,
    turn: &Turn,
    buffer: &mut [u8],
    number: u32,
    other: Option<Report>,
) -> Tuned {
    let tuned = right(past, turn, buffer);
    match other {
        Some(report) if tuned.report.number == number => Tuned { report, ..tuned },
        _ => tuned,
    }
}

/// The right answer, with the report that `change` makes of it where it is refusal `number`.
fn told(
    past: &Past,
    turn: &Turn,
    buffer: &mut [u8],
    number: u32,
    change: impl FnOnce(Report) -> Report,
) -> Tuned {
    let mut tuned = right(past, turn, buffer);
    if tuned.report.number == number {
        tuned.report = change(tuned.report);
    }
    tuned
}

/// The record that a turn would have made, had it been taken.
fn made(past: &Past, turn: &Turn) -> Design {
    record_of(&turn.put(&past.last), past.design.taps, past.design.sum)
}

/// A turn of another record in its place; a refusal leaves the right one, as it must.
fn of_another(past: &Past, kept: &Design, turn: &Turn, buffer: &mut [u8]) -> Tuned {
    let tuned = of(kept, turn, buffer);
    if tuned.report.is_accepted() {
        return tuned;
    }
    Tuned {
        design: past.design,
        ..tuned
    }
}

/// A turn of the record that other numbers have.
fn of_numbers(past: &Past, band: &Band, turn: &Turn, buffer: &mut [u8]) -> Tuned {
    let kept = record_of(band, past.design.taps, past.design.sum);
    of_another(past, &kept, turn, buffer)
}

fn beta_refused(turn: &Turn) -> Option<Report> {
    match *turn {
        Turn::Beta { beta } if !(beta >= 0.0 && beta < f64::INFINITY) => Some(Report::plain(4)),
        _ => None,
    }
}

/// The new beta, or the one that is kept.
fn beta(past: &Past, turn: &Turn) -> f64 {
    match *turn {
        Turn::Cutoff { .. } => past.design.beta,
        Turn::Beta { beta } => beta,
    }
}

/// The right answer, but where it is refusal `number` and the series doesn't settle, 16.
fn series_before(past: &Past, turn: &Turn, buffer: &mut [u8], number: u32) -> Tuned {
    // The window has no beta where the refusal is 7.
    let taken = number == 7 || past.design.window == KAISER;
    let refused = taken && !is_settled(beta(past, turn));
    swapped(
        past,
        turn,
        buffer,
        number,
        refused.then(|| Report::plain(16)),
    )
}

/// The right answer, but 16 where it is accepted and the turn as said.
fn refused_too(
    past: &Past,
    turn: &Turn,
    buffer: &mut [u8],
    said: impl FnOnce(&Design) -> bool,
) -> Tuned {
    let came = buffer.to_vec();
    let tuned = right(past, turn, buffer);
    if tuned.report.is_accepted() && said(&tuned.design) {
        buffer.copy_from_slice(&came);
        return Tuned {
            design: past.design,
            report: Report::plain(16),
        };
    }
    tuned
}

/// The right answer, with the record that `change` makes of the old one after refusal `number`.
fn spoilt_at(
    past: &Past,
    turn: &Turn,
    buffer: &mut [u8],
    number: u32,
    change: impl FnOnce(Design) -> Design,
) -> Tuned {
    let mut tuned = right(past, turn, buffer);
    if tuned.report.number == number {
        tuned.design = change(tuned.design);
    }
    tuned
}

fn rate_refused(turn: &Turn) -> Option<Report> {
    match *turn {
        Turn::Cutoff { rate, .. } if bad(rate) => Some(Report::plain(1)),
        _ => None,
    }
}

fn cutoff_refused(turn: &Turn) -> Option<Report> {
    match *turn {
        Turn::Cutoff { cutoff, rate } if !(cutoff / rate > 0.0 && cutoff / rate < 0.5) => {
            Some(Report::range(2, 0.0, rate / 2.0, cutoff))
        }
        _ => None,
    }
}

fn bytes_refused(buffer: &[u8]) -> Option<Report> {
    let bytes = buffer.len() as u64;
    (!bytes.is_multiple_of(8)).then(|| Report::length(bytes - bytes % 8, bytes))
}

fn taps_refused(past: &Past, buffer: &[u8]) -> Option<Report> {
    let (taps, given) = (past.design.taps, buffer.len() as u64 / 8);
    (taps != given).then(|| Report::length(taps, given))
}

fn is_beta(turn: &Turn) -> bool {
    matches!(turn, Turn::Beta { .. })
}

/// A row of wrong turns: what is wrong, and the answer.
macro_rules! turns {
    ($forged:literal: $($what:literal, $wrong:expr;)*) => {
        &[$(Fault {
            what: $what,
            wrong: Side { turn: $wrong, ..RIGHT },
            forged: $forged,
        }),*]
    };
}

/// All of them.
pub const FAULTS: [&[Fault]; 3] = [FIRST, TURNS, FORGED];

const FIRST: &[Fault] = &[
    Fault {
        what: "the taps kept of a refused first design",
        wrong: Side {
            design: |band, buffer| {
                let mut tuned = first(band, buffer);
                tuned.design.taps = buffer.len() as u64 / 8;
                tuned
            },
            ..RIGHT
        },
        forged: false,
    },
    Fault {
        what: "a beta kept that the window hasn't",
        wrong: Side {
            design: |band, buffer| {
                let mut tuned = first(band, buffer);
                if tuned.report.is_accepted() {
                    tuned.design.beta = band.beta;
                }
                tuned
            },
            ..RIGHT
        },
        forged: false,
    },
    Fault {
        what: "no series kept where the window has none",
        wrong: Side {
            design: |band, buffer| {
                let mut tuned = first(band, buffer);
                if band.window != KAISER {
                    tuned.design.series = 0.0;
                }
                tuned
            },
            ..RIGHT
        },
        forged: false,
    },
    Fault {
        what: "a first design refused with 10 before 16",
        wrong: Side {
            design: |band, buffer| {
                let mut tuned = first(band, buffer);
                if tuned.report.number == 16 {
                    tuned.report.number = 10;
                }
                tuned
            },
            ..RIGHT
        },
        forged: false,
    },
    Fault {
        what: "a first design of one tap refused with 16",
        wrong: Side {
            design: |band, buffer| {
                let came = buffer.to_vec();
                let tuned = first(band, buffer);
                if tuned.report.is_accepted() && tuned.design.series == f64::INFINITY {
                    buffer.copy_from_slice(&came);
                    return Tuned {
                        design: Design::default(),
                        report: Report::plain(16),
                    };
                }
                tuned
            },
            ..RIGHT
        },
        forged: false,
    },
    Fault {
        what: "the series kept of a first design refused with 16",
        wrong: Side {
            design: |band, buffer| {
                let mut tuned = first(band, buffer);
                if tuned.report.number == 16 {
                    tuned.design.series = bessel_i0(band.beta);
                }
                tuned
            },
            ..RIGHT
        },
        forged: false,
    },
];

const TURNS: &[Fault] = turns![false:
    "the old series kept after a new beta", |past, turn, buffer| {
        kept(past, turn, buffer, |old, new| Design { series: old.series, ..new })
    };
    "the new beta's window divided by the old series", |past, turn, buffer| {
        let mut tuned = right(past, turn, buffer);
        if tuned.report.is_accepted() && past.design.taps > 1 {
            let sum = tuned.design.sum * (tuned.design.series / past.design.series);
            tuned.report.value = sum;
            tuned.design.sum = sum;
        }
        tuned
    };
    "the new record after a refusal", |past, turn, buffer| {
        spoilt(past, turn, buffer, made(past, turn))
    };
    "the new fraction after a refusal", |past, turn, buffer| {
        let fraction = made(past, turn).fraction;
        spoilt(past, turn, buffer, Design { fraction, ..past.design })
    };
    "the new series after a beta is refused with 10", |past, turn, buffer| {
        let series = bessel_i0(beta(past, turn));
        spoilt_at(past, turn, buffer, 10, |kept| Design { series, ..kept })
    };
    "the new series after a beta is refused with 16", |past, turn, buffer| {
        let series = bessel_i0(beta(past, turn));
        spoilt_at(past, turn, buffer, 16, |kept| Design { series, ..kept })
    };
    "the new beta after it is refused with 16", |past, turn, buffer| {
        let beta = beta(past, turn);
        spoilt_at(past, turn, buffer, 16, |kept| Design { beta, ..kept })
    };
    "the record zeroed at a 16", |past, turn, buffer| {
        spoilt_at(past, turn, buffer, 16, |_| Design::default())
    };
    "the record zeroed at a refusal", |past, turn, buffer| {
        spoilt(past, turn, buffer, Design::default())
    };
    "the record zeroed at a wrong length", |past, turn, buffer| {
        spoilt_at(past, turn, buffer, 8, |_| Design::default())
    };
    "the first record after a refusal", |past, turn, buffer| {
        let record = record_of(&past.first, past.design.taps, past.design.sum);
        spoilt(past, turn, buffer, record)
    };
    "the taps written at a refusal", |past, turn, buffer| {
        let tuned = right(past, turn, buffer);
        if !tuned.report.is_accepted() {
            // Those of the numbers that are kept.
            let taps = lowpass::filled(&past.last, 8 * past.design.taps).taps;
            write(&taps, buffer);
        }
        tuned
    };
    "element 0 written before a sum is refused", |past, turn, buffer| {
        let tuned = right(past, turn, buffer);
        if tuned.report.number == 10 {
            write(&[1.0], buffer);
        }
        tuned
    };
    "element 0 written before a series is refused", |past, turn, buffer| {
        let tuned = right(past, turn, buffer);
        if tuned.report.number == 16 {
            write(&[1.0], buffer);
        }
        tuned
    };
    "a buffer of another length cleared", |past, turn, buffer| {
        let tuned = right(past, turn, buffer);
        if tuned.report.number == 8 {
            buffer.fill(0);
        }
        tuned
    };
    "nothing written", |past, turn, buffer| {
        right(past, turn, &mut buffer.to_vec())
    };
    "the taps before the turn written", |past, turn, buffer| {
        let tuned = right(past, turn, buffer);
        if tuned.report.is_accepted() {
            write(&lowpass::filled(&past.last, 8 * past.design.taps).taps, buffer);
        }
        tuned
    };
    "4 before 7", |past, turn, buffer| {
        swapped(past, turn, buffer, 7, beta_refused(turn))
    };
    "the bytes tested before 7", |past, turn, buffer| {
        swapped(past, turn, buffer, 7, bytes_refused(buffer))
    };
    "the taps tested before 7", |past, turn, buffer| {
        swapped(past, turn, buffer, 7, taps_refused(past, buffer))
    };
    "the taps tested before the bytes", |past, turn, buffer| {
        swapped(past, turn, buffer, 8, taps_refused(past, buffer))
    };
    "the rate tested before the length", |past, turn, buffer| {
        swapped(past, turn, buffer, 8, rate_refused(turn))
    };
    "the beta tested before the length", |past, turn, buffer| {
        swapped(past, turn, buffer, 8, beta_refused(turn))
    };
    "the cutoff tested before the rate", |past, turn, buffer| {
        swapped(past, turn, buffer, 1, cutoff_refused(turn))
    };
    "the length told the other way round", |past, turn, buffer| {
        told(past, turn, buffer, 8, |report| Report::length(report.given, report.expected))
    };
    "a number of taps told in bytes", |past, turn, buffer| {
        let whole = buffer.len().is_multiple_of(8);
        told(past, turn, buffer, 8, |report| {
            if whole { Report::length(8 * report.expected, 8 * report.given) } else { report }
        })
    };
    "a longer buffer taken", |past, turn, buffer| {
        let bytes = 8 * past.design.taps as usize;
        if buffer.len() > bytes { right(past, turn, &mut buffer[..bytes]) } else { right(past, turn, buffer) }
    };
    "the quotient as the cutoff offered", |past, turn, buffer| {
        told(past, turn, buffer, 2, |report| Report {
            largest: 0.5,
            offered: report.offered / report.largest / 2.0,
            ..report
        })
    };
    "the new cutoff judged with the old rate", |past, turn, buffer| {
        match *turn {
            Turn::Cutoff { cutoff, rate } if !bad(rate) => {
                right(past, &Turn::Cutoff { cutoff, rate: past.last.rate }, buffer)
            }
            _ => right(past, turn, buffer),
        }
    };
    "the new cutoff judged with the first rate", |past, turn, buffer| {
        match *turn {
            Turn::Cutoff { cutoff, rate } if !bad(rate) => {
                right(past, &Turn::Cutoff { cutoff, rate: past.first.rate }, buffer)
            }
            _ => right(past, turn, buffer),
        }
    };
    "the new cutoff taken as a fraction", |past, turn, buffer| {
        match *turn {
            Turn::Cutoff { cutoff, rate } if !bad(rate) && cutoff < 0.5 => {
                right(past, &Turn::Cutoff { cutoff, rate: 1.0 }, buffer)
            }
            _ => right(past, turn, buffer),
        }
    };
    "a quotient that underflows taken", |past, turn, buffer| {
        match *turn {
            Turn::Cutoff { cutoff, rate } if cutoff > 0.0 && cutoff / rate == 0.0 && !bad(rate) => {
                right(past, &Turn::Cutoff { cutoff: SMALLEST, rate: 1.0 }, buffer)
            }
            _ => right(past, turn, buffer),
        }
    };
    "the sum not renewed", |past, turn, buffer| {
        kept(past, turn, buffer, |old, new| Design { sum: old.sum, ..new })
    };
    "the sum of a new beta not renewed", |past, turn, buffer| {
        let beta = is_beta(turn);
        kept(past, turn, buffer, |old, new| Design { sum: if beta { old.sum } else { new.sum }, ..new })
    };
    "the beta not renewed", |past, turn, buffer| {
        kept(past, turn, buffer, |old, new| Design { beta: old.beta, ..new })
    };
    "the fraction not renewed", |past, turn, buffer| {
        kept(past, turn, buffer, |old, new| Design { fraction: old.fraction, ..new })
    };
    "the fraction as a product", |past, turn, buffer| {
        let fraction = match *turn {
            Turn::Cutoff { cutoff, rate } => cutoff * (1.0 / rate),
            Turn::Beta { .. } => past.design.fraction,
        };
        kept(past, turn, buffer, |_, new| Design { fraction, ..new })
    };
    "the sign of a beta of -0 lost", |past, turn, buffer| {
        kept(past, turn, buffer, |_, new| Design { beta: new.beta + 0.0, ..new })
    };
    "a beta of -0 refused", |past, turn, buffer| {
        match *turn {
            Turn::Beta { beta } if beta.to_bits() == 1 << 63 => {
                right(past, &Turn::Beta { beta: f64::NAN }, buffer)
            }
            _ => right(past, turn, buffer),
        }
    };
    "one tap refused with 16 at a new beta", |past, turn, buffer| {
        let beta = is_beta(turn);
        refused_too(past, turn, buffer, |new| beta && new.series == f64::INFINITY)
    };
    "one tap refused with 16 at a new cutoff", |past, turn, buffer| {
        let beta = is_beta(turn);
        refused_too(past, turn, buffer, |new| !beta && new.series == f64::INFINITY)
    };
    "settled up to 713 alone", |past, turn, buffer| {
        refused_too(past, turn, buffer, |new| new.taps > 1 && new.beta > 713.0)
    };
    "an infinite series not kept", |past, turn, buffer| {
        kept(past, turn, buffer, |old, new| Design {
            series: if new.series == f64::INFINITY { old.series } else { new.series },
            ..new
        })
    };
    "4 in place of 16", |past, turn, buffer| {
        told(past, turn, buffer, 16, |_| Report::plain(4))
    };
    "10 before 16", |past, turn, buffer| {
        told(past, turn, buffer, 16, |_| Report::plain(10))
    };
    "settled by the count alone", |past, turn, buffer| {
        let settled = series(beta(past, turn)).terms < 500;
        swapped(past, turn, buffer, 16, settled.then(|| Report::plain(10)))
    };
    "a beta taken that doesn't settle", |past, turn, buffer| {
        let tuned = right(past, turn, buffer);
        if tuned.report.number == 16 {
            let (design, taps) = (made(past, turn), past.design.taps);
            return Tuned { design, report: Report::accepted(taps, design.sum) };
        }
        tuned
    };
    "the series tested before the beta", |past, turn, buffer| {
        series_before(past, turn, buffer, 4)
    };
    "the series tested before the length", |past, turn, buffer| {
        series_before(past, turn, buffer, 8)
    };
    "the series tested before 7", |past, turn, buffer| {
        series_before(past, turn, buffer, 7)
    };
    "a new beta taken on Hann", |past, turn, buffer| {
        let mut kept = past.design;
        if kept.window == 0 && is_beta(turn) {
            kept.window = KAISER;
        }
        of_another(past, &kept, turn, buffer)
    };
    "a new beta taken and not used on Hann", |past, turn, buffer| {
        let tuned = right(past, turn, buffer);
        let fits = buffer.len() as u64 == 8 * past.design.taps;
        if tuned.report.number == 7 && past.design.window == 0 && fits && beta_refused(turn).is_none() {
            let Answer { report, taps, .. } = lowpass::filled(&past.last, buffer.len() as u64);
            write(&taps, buffer);
            return Tuned { report, ..tuned };
        }
        tuned
    };
    "the first design's numbers in place of the last accepted ones", |past, turn, buffer| {
        of_numbers(past, &past.first, turn, buffer)
    };
    "the first design's cutoff at a new beta", |past, turn, buffer| {
        let band = if is_beta(turn) { past.first } else { past.last };
        of_numbers(past, &band, turn, buffer)
    };
    "the first design's beta at a new cutoff", |past, turn, buffer| {
        let band = if is_beta(turn) { past.last } else { past.first };
        of_numbers(past, &band, turn, buffer)
    };
    "the same beta again refused", |past, turn, buffer| {
        match *turn {
            Turn::Beta { beta } if beta.to_bits() == past.design.beta.to_bits() => {
                right(past, &Turn::Beta { beta: -1.0 }, buffer)
            }
            _ => right(past, turn, buffer),
        }
    };
];

const FORGED: &[Fault] = turns![true:
    "a window without a code taken as Kaiser's", |past, turn, buffer| {
        let mut kept = past.design;
        kept.window = kept.window.min(KAISER);
        of_another(past, &kept, turn, buffer)
    };
    "a window without a code told after the length", |past, turn, buffer| {
        let other = if past.design.window > KAISER { bytes_refused(buffer) } else { None };
        swapped(past, turn, buffer, 7, other)
    };
    "the series made anew at a new cutoff", |past, turn, buffer| {
        let mut kept = past.design;
        if kept.window == KAISER {
            kept.series = bessel_i0(kept.beta);
        }
        of_another(past, &kept, turn, buffer)
    };
    "a fraction taken that isn't below 1/2", |past, turn, buffer| {
        let mut kept = past.design;
        if kept.fraction >= 0.5 {
            kept.fraction = 0.25;
        }
        of_another(past, &kept, turn, buffer)
    };
    "no taps told as a sum", |past, turn, buffer| {
        told(past, turn, buffer, 6, |_| Report::plain(10))
    };
    "a record's beta not judged at a new cutoff", |past, turn, buffer| {
        let beta = is_beta(turn);
        told(past, turn, buffer, 4, |report| if beta { report } else { Report::plain(10) })
    };
    "a record's beta settled by its series", |past, turn, buffer| {
        let settled = !is_beta(turn) && past.design.series.is_finite();
        swapped(past, turn, buffer, 16, settled.then(|| Report::plain(10)))
    };
    "16 by a record's infinite series", |past, turn, buffer| {
        let Design { window, series, taps, .. } = past.design;
        let infinite = !is_beta(turn) && window == KAISER && series == f64::INFINITY && taps > 1;
        swapped(past, turn, buffer, 10, infinite.then(|| Report::plain(16)))
    };
    "a record of one tap refused with 16", |past, turn, buffer| {
        let one = past.design.taps == 1 && past.design.window == KAISER;
        let refused = one && !is_settled(beta(past, turn));
        refused_too(past, turn, buffer, |_| refused)
    };
    "the series tested before the cutoff", |past, turn, buffer| {
        series_before(past, turn, buffer, 2)
    };
    "the series tested before the rate", |past, turn, buffer| {
        series_before(past, turn, buffer, 1)
    };
    "the series tested before the count", |past, turn, buffer| {
        series_before(past, turn, buffer, 6)
    };
    "the record's own sum used again", |past, turn, buffer| {
        let mut tuned = right(past, turn, buffer);
        if tuned.report.is_accepted() {
            tuned.report.value = past.design.sum;
        }
        tuned
    };
];

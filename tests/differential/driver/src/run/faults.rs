//! Wrong designers that the comparison must notice, so that its tickets are shown to tell.
//!
//! Each gives the Rust side's answers with one thing changed. Those of a kind are in its folder;
//! here is what they share.

use crate::run::compare::Side;
use crate::run::designers::{self, Answer};
use crate::run::report::Report;
use crate::run::tickets::{Kind, Ticket};
use crate::{
    channelizer, formats, gaussian, halfband, kaiser, lowpass, rrc, sections, spec, windows,
};

/// A wrong designer in place of the one named.
pub struct Fault {
    pub kind: Kind,
    pub what: &'static str,
    pub wrong: Side,
}

/// A row of faults: the kind, what is wrong, and the answer to a ticket with a buffer.
macro_rules! faults {
    ($($kind:ident, $what:literal, $wrong:expr;)*) => {
        &[$(Fault {
            kind: Kind::$kind,
            what: $what,
            wrong: $wrong,
        }),*]
    };
}

pub(crate) use faults;

/// All of them, by the designers.
pub const FAULTS: [&[Fault]; 14] = [
    kaiser::faults::FAULTS,
    lowpass::faults::FAULTS,
    spec::faults::FAULTS,
    halfband::faults::FAULTS,
    gaussian::faults::FAULTS,
    channelizer::faults::FAULTS,
    formats::q15::faults::FAULTS,
    rrc::faults::FAULTS,
    sections::faults::FAULTS,
    sections::butterworth_faults::FAULTS,
    formats::q14::faults::FAULTS,
    formats::singles::faults::FAULTS,
    windows::faults::FAULTS,
    windows::gain::faults::FAULTS,
];

/// The Rust side's answer, what it writes written as the port writes it.
pub fn right(ticket: &Ticket, buffer: &mut [u8]) -> Report {
    let Answer {
        report,
        taps,
        fixed,
        singles,
    } = designers::rust(ticket);
    write(&taps, buffer);
    write_fixed(&fixed, buffer);
    write_singles(&singles, buffer);
    report
}

pub fn write(taps: &[f64], buffer: &mut [u8]) {
    for (bytes, tap) in buffer.chunks_exact_mut(8).zip(taps) {
        bytes.copy_from_slice(&tap.to_le_bytes());
    }
}

pub fn write_fixed(numbers: &[i16], buffer: &mut [u8]) {
    for (bytes, number) in buffer.chunks_exact_mut(2).zip(numbers) {
        bytes.copy_from_slice(&number.to_le_bytes());
    }
}

pub fn write_singles(samples: &[f32], buffer: &mut [u8]) {
    for (bytes, sample) in buffer.chunks_exact_mut(4).zip(samples) {
        bytes.copy_from_slice(&sample.to_le_bytes());
    }
}

/// The Rust side's report and its taps as `change` has made them.
pub fn reshaped(ticket: &Ticket, buffer: &mut [u8], change: impl FnOnce(&mut Vec<f64>)) -> Report {
    let Answer {
        report, mut taps, ..
    } = designers::rust(ticket);
    if report.is_accepted() {
        change(&mut taps);
    }
    write(&taps, buffer);
    report
}

/// The Rust side's report and its Q15 or Q14 numbers as `change` has made them, also after an 11.
pub fn reshaped_fixed(
    ticket: &Ticket,
    buffer: &mut [u8],
    change: impl FnOnce(&mut Vec<i16>),
) -> Report {
    let Answer {
        report, mut fixed, ..
    } = designers::rust(ticket);
    change(&mut fixed);
    write_fixed(&fixed, buffer);
    report
}

/// The Rust side's report and its f32s as `change` has made them.
pub fn reshaped_singles(
    ticket: &Ticket,
    buffer: &mut [u8],
    change: impl FnOnce(&mut Vec<f32>),
) -> Report {
    let Answer {
        report,
        mut singles,
        ..
    } = designers::rust(ticket);
    change(&mut singles);
    write_singles(&singles, buffer);
    report
}

/// The right answer, before which something is written that a refusal must leave.
pub fn spoilt(ticket: &Ticket, buffer: &mut [u8], number: u32) -> Report {
    let report = right(ticket, buffer);
    if report.number == number {
        write(&[1.0], buffer);
    }
    report
}

/// The right answer, but on a refusal `number` the buffer is cleared.
pub fn cleared(ticket: &Ticket, buffer: &mut [u8], number: u32) -> Report {
    let report = right(ticket, buffer);
    if report.number == number {
        buffer.fill(0);
    }
    report
}

/// The refusal of a byte length that isn't whole elements of `width` bytes.
pub fn bytes_refused(bytes: u64, width: u64) -> Option<Report> {
    let whole = bytes - bytes % width;
    (whole != bytes).then(|| Report::length(whole, bytes))
}

/// The right answer, but where it is refusal `number` and another applies too, that one.
pub fn swapped(ticket: &Ticket, buffer: &mut [u8], number: u32, other: Option<Report>) -> Report {
    let report = right(ticket, buffer);
    match other {
        Some(other) if report.number == number => other,
        _ => report,
    }
}

/// The right answer, changed where it is refusal `number` with what it carries.
pub fn changed(
    ticket: &Ticket,
    buffer: &mut [u8],
    (number, carries): (u32, u32),
    change: impl FnOnce(Report) -> Report,
) -> Report {
    let report = right(ticket, buffer);
    if (report.number, report.carries) == (number, carries) {
        change(report)
    } else {
        report
    }
}

/// The right answer to another ticket, whose buffer has the same length.
pub fn of(ticket: Ticket, buffer: &mut [u8]) -> Report {
    right(&ticket, buffer)
}

pub fn bad(x: f64) -> bool {
    !(x > 0.0 && x < f64::INFINITY)
}

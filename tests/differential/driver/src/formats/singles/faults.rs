//! Wrong conversions to f32 that the comparison must notice.

use crate::formats::singles::inputs::OVERFLOW;
use crate::run::faults::{
    Fault, bytes_refused, changed, cleared, faults, of, reshaped_singles, right, swapped,
};
use crate::run::report::Report;
use crate::run::tickets::{Kind, Source, Ticket};

fn source(ticket: &Ticket) -> &Source {
    ticket.source().expect("a conversion")
}

/// The right report, each f32 made of its element in another way.
fn each(ticket: &Ticket, buffer: &mut [u8], convert: fn(f64) -> f32) -> Report {
    let elements = &source(ticket).elements;
    reshaped_singles(ticket, buffer, |singles| {
        for (single, &x) in singles.iter_mut().zip(elements) {
            *single = convert(x);
        }
    })
}

/// The f32 next to `x` toward zero, or `x` itself.
fn truncated(x: f64) -> f32 {
    let near = x as f32;
    if f64::from(near).abs() > x.abs() {
        f32::from_bits(near.to_bits() - 1)
    } else {
        near
    }
}

/// The f32 next to `x` away from zero where it is in the middle of two, else the nearest one.
fn ties_away(x: f64) -> f32 {
    let below = truncated(x);
    if !(x as f32).is_finite() || f64::from(below) == x {
        return x as f32;
    }
    let above = f32::from_bits(below.to_bits() + 1);
    let middle = (f64::from(below) + f64::from(above)) / 2.0;
    if x.abs() >= middle.abs() {
        above
    } else {
        below
    }
}

/// The f32 toward zero where `x` is in the middle of two, else the nearest one.
fn ties_toward(x: f64) -> f32 {
    let below = truncated(x);
    if below.is_finite() && f64::from(below) != x {
        let above = f32::from_bits(below.to_bits() + 1);
        let middle = (f64::from(below) + f64::from(above)) / 2.0;
        if x.abs() == middle.abs() {
            return below;
        }
    }
    x as f32
}

fn flushed(x: f64) -> f32 {
    let near = x as f32;
    if near.is_subnormal() {
        0.0_f32.copysign(near)
    } else {
        near
    }
}

/// The nearest f32, by way of a number of 24 bits, as if it had no smallest exponent.
fn rounded_twice(x: f64) -> f32 {
    let scale = 2.0_f64.powi(60);
    if x.abs() < 1e-30 {
        (f64::from((x * scale) as f32) / scale) as f32
    } else {
        x as f32
    }
}

/// An infinity for every number above the largest f32.
fn infinite_early(x: f64) -> f32 {
    if x.abs() > f64::from(f32::MAX) {
        f32::INFINITY.copysign(x as f32)
    } else {
        x as f32
    }
}

/// The largest f32 for every finite number above it.
fn held(x: f64) -> f32 {
    if x.is_finite() {
        (x as f32).clamp(f32::MIN, f32::MAX)
    } else {
        x as f32
    }
}

fn infinite_late(x: f64) -> f32 {
    if x.abs() == OVERFLOW {
        f32::MAX.copysign(x as f32)
    } else {
        x as f32
    }
}

fn nan_to_zero(x: f64) -> f32 {
    if x.is_nan() { 0.0 } else { x as f32 }
}

fn nan_to_infinity(x: f64) -> f32 {
    if x.is_nan() { f32::INFINITY } else { x as f32 }
}

/// Zeros without their sign.
fn unsigned_zero(x: f64) -> f32 {
    x as f32 + 0.0
}

fn swapped_bytes(x: f64) -> f32 {
    f32::from_bits((x as f32).to_bits().swap_bytes())
}

/// Whether the byte lengths are whole elements.
fn whole(ticket: &Ticket) -> bool {
    source(ticket).rest == 0 && ticket.bytes().is_multiple_of(4)
}

fn sections_refused(ticket: &Ticket) -> Option<Report> {
    let count = source(ticket).elements.len() as u64;
    (!count.is_multiple_of(5)).then(|| Report::length(count / 5 * 5, count))
}

fn elements_refused(ticket: &Ticket) -> Option<Report> {
    let count = source(ticket).elements.len() as u64;
    let given = ticket.bytes() / 4;
    (count != given).then(|| Report::length(count, given))
}

/// Where an element isn't infinite and its f32 is, 11.
fn overflow_refused(ticket: &Ticket, buffer: &mut [u8]) -> Report {
    let elements = &source(ticket).elements;
    let place = elements
        .iter()
        .position(|&x| x.is_finite() && (x as f32).is_infinite());
    let largest = f64::from(f32::MAX);
    let other =
        place.map(|place| Report::element(place as u64, -largest, largest, elements[place]));
    swapped(ticket, buffer, 0, other)
}

pub const FAULTS: &[Fault] = faults![
    ToF32, "truncated", |ticket, buffer| each(ticket, buffer, truncated);
    ToF32, "ties away from zero", |ticket, buffer| each(ticket, buffer, ties_away);
    ToF32, "ties toward zero", |ticket, buffer| each(ticket, buffer, ties_toward);
    ToF32, "subnormal f32s flushed", |ticket, buffer| each(ticket, buffer, flushed);
    ToF32, "subnormal f32s rounded twice", |ticket, buffer| each(ticket, buffer, rounded_twice);
    ToF32, "an infinity above the largest f32", |ticket, buffer| {
        each(ticket, buffer, infinite_early)
    };
    ToF32, "the largest f32 at 2^128 - 2^103", |ticket, buffer| each(ticket, buffer, infinite_late);
    ToF32, "held to the largest f32", |ticket, buffer| each(ticket, buffer, held);
    ToF32, "a NaN to 0", |ticket, buffer| each(ticket, buffer, nan_to_zero);
    ToF32, "a NaN to an infinity", |ticket, buffer| each(ticket, buffer, nan_to_infinity);
    ToF32, "the sign of a zero lost", |ticket, buffer| each(ticket, buffer, unsigned_zero);
    ToF32, "the bytes the other way round", |ticket, buffer| each(ticket, buffer, swapped_bytes);
    ToF32, "11 for an overflow", overflow_refused;
    ToF32, "whole sections alone taken", |ticket, buffer| {
        let whole = whole(ticket);
        swapped(ticket, buffer, 0, sections_refused(ticket).filter(|_| whole))
    };
    ToF32, "the destination's bytes tested before the source's", |ticket, buffer| {
        swapped(ticket, buffer, 8, bytes_refused(ticket.bytes(), 4))
    };
    ToF32, "the numbers of elements tested before the bytes", |ticket, buffer| {
        swapped(ticket, buffer, 8, elements_refused(ticket))
    };
    ToF32, "a destination of half elements taken", |ticket, buffer| {
        let source = source(ticket).clone();
        let bytes = ticket.bytes();
        let bytes = if bytes % 4 == 2 { bytes - 2 } else { bytes };
        of(Ticket::ToF32 { source, bytes }, buffer)
    };
    ToF32, "the lengths in bytes", |ticket, buffer| {
        let whole = whole(ticket);
        changed(ticket, buffer, (8, 2), |report| {
            if whole { Report::length(8 * report.expected, 4 * report.given) } else { report }
        })
    };
    ToF32, "the last element left out", |ticket, buffer| {
        reshaped_singles(ticket, buffer, |singles| {
            singles.pop();
        })
    };
    ToF32, "an empty conversion refused", |ticket, buffer| {
        let empty = source(ticket).elements.is_empty();
        swapped(ticket, buffer, 0, empty.then(|| Report::plain(6)))
    };
    ToF32, "the destination cleared where a length is refused", |ticket, buffer| {
        cleared(ticket, buffer, 8)
    };
    ToF32, "nothing written", |ticket, _buffer| right(ticket, &mut []);
    ToF32Sos, "truncated", |ticket, buffer| each(ticket, buffer, truncated);
    ToF32Sos, "ties away from zero", |ticket, buffer| each(ticket, buffer, ties_away);
    ToF32Sos, "subnormal f32s flushed", |ticket, buffer| each(ticket, buffer, flushed);
    ToF32Sos, "subnormal f32s rounded twice", |ticket, buffer| each(ticket, buffer, rounded_twice);
    ToF32Sos, "an infinity above the largest f32", |ticket, buffer| {
        each(ticket, buffer, infinite_early)
    };
    ToF32Sos, "a NaN to 0", |ticket, buffer| each(ticket, buffer, nan_to_zero);
    ToF32Sos, "the sign of a zero lost", |ticket, buffer| each(ticket, buffer, unsigned_zero);
    ToF32Sos, "11 for an overflow", overflow_refused;
    ToF32Sos, "a source of any number of elements taken", |ticket, buffer| {
        let taken = whole(ticket) && elements_refused(ticket).is_none();
        let count = source(ticket).elements.len() as u64;
        swapped(ticket, buffer, 8, taken.then(|| Report::accepted(count, 0.0)))
    };
    ToF32Sos, "the sections tested before the bytes", |ticket, buffer| {
        swapped(ticket, buffer, 8, sections_refused(ticket))
    };
    ToF32Sos, "the numbers of elements tested before the sections", |ticket, buffer| {
        let whole = whole(ticket);
        swapped(ticket, buffer, 8, elements_refused(ticket).filter(|_| whole))
    };
    ToF32Sos, "the multiple of five above expected", |ticket, buffer| {
        let whole = whole(ticket);
        let other = sections_refused(ticket);
        let above = other.map(|report| Report::length(report.expected + 5, report.given));
        swapped(ticket, buffer, 8, above.filter(|_| whole))
    };
    ToF32Sos, "the lengths in sections", |ticket, buffer| {
        let whole = whole(ticket);
        changed(ticket, buffer, (8, 2), |report| {
            if whole { Report::length(report.expected / 5, report.given / 5) } else { report }
        })
    };
    ToF32Sos, "only the first section converted", |ticket, buffer| {
        reshaped_singles(ticket, buffer, |singles| singles.truncate(5))
    };
    ToF32Sos, "the number of sections counted", |ticket, buffer| {
        let report = right(ticket, buffer);
        Report { count: report.count / 5, ..report }
    };
    ToF32Sos, "the destination cleared where a length is refused", |ticket, buffer| {
        cleared(ticket, buffer, 8)
    };
];

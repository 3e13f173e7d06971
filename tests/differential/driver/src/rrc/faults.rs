//! Wrong root-raised-cosine pulses that the comparison must notice.

use std::f64::consts::{PI, SQRT_2};

use crate::rrc::inputs::{NEAR, times};
use crate::run::faults::{Fault, changed, cleared, faults, of, reshaped, right, spoilt, swapped};
use crate::run::report::Report;
use crate::run::tickets::{Cosine, Kind, Ticket};

fn cosine(ticket: &Ticket) -> Cosine {
    ticket.cosine().expect("a pulse")
}

/// The refusals, each as if it were tested first.
fn rolloff_refused(cosine: Cosine) -> Option<Report> {
    (!(0.05..=1.0).contains(&cosine.rolloff)).then(|| Report::range(5, 0.05, 1.0, cosine.rolloff))
}

fn samples_refused(cosine: Cosine) -> Option<Report> {
    (!(2..=1024).contains(&cosine.samples))
        .then(|| Report::range(6, 2.0, 1024.0, cosine.samples as f64))
}

fn span_refused(cosine: Cosine) -> Option<Report> {
    (!(4..=32).contains(&cosine.span)).then(|| Report::range(6, 4.0, 32.0, cosine.span as f64))
}

fn counts_refused(cosine: Cosine) -> Option<Report> {
    samples_refused(cosine).or(span_refused(cosine))
}

/// The number of taps of a pulse whose counts are taken.
fn count(cosine: Cosine) -> Option<u64> {
    counts_refused(cosine)
        .is_none()
        .then(|| cosine.samples * cosine.span + 1)
}

fn length_refused(ticket: &Ticket) -> Option<Report> {
    let given = ticket.bytes() / 8;
    let count = count(cosine(ticket)).filter(|&count| count != given)?;
    ticket
        .bytes()
        .is_multiple_of(8)
        .then(|| Report::length(count, given))
}

/// The value at a singular point.
fn closed(rolloff: f64) -> f64 {
    let a = PI / (4.0 * rolloff);
    let (sine, cosine) = (libm::sin(a), libm::cos(a));
    (rolloff / SQRT_2) * ((1.0 + 2.0 / PI) * sine + (1.0 - 2.0 / PI) * cosine)
}

/// The pulse before it is scaled, by the closed form where a tap is as near as said.
fn raw(cosine: Cosine, near: f64) -> Vec<f64> {
    let b = cosine.rolloff;
    let value = |t: f64| {
        let x = 4.0 * b * t;
        let off = 1.0 - x * x;
        if t == 0.0 {
            (1.0 - b) + 4.0 * b / PI
        } else if off.abs() < near {
            closed(b)
        } else {
            (libm::sin(PI * t * (1.0 - b)) + x * libm::cos(PI * t * (1.0 + b))) / (PI * t * off)
        }
    };
    times(cosine).map(value).collect()
}

fn energy<'a>(taps: impl Iterator<Item = &'a f64>) -> f64 {
    taps.fold(0.0, |sum, tap| sum + tap * tap)
}

fn scaled(taps: &[f64]) -> Vec<f64> {
    let factor = 1.0 / libm::sqrt(energy(taps.iter()));
    taps.iter().map(|tap| tap * factor).collect()
}

/// The right report, its factor worked out of the raw taps in another way.
fn factored(ticket: &Ticket, near: f64, factor: fn(&[f64]) -> f64) -> Report {
    let report = right(ticket, &mut []);
    if report.is_accepted() {
        let value = factor(&raw(cosine(ticket), near));
        Report { value, ..report }
    } else {
        report
    }
}

fn usual(taps: &[f64]) -> f64 {
    1.0 / libm::sqrt(energy(taps.iter()))
}

/// The right answer, its taps worked out in another way.
fn remade(ticket: &Ticket, buffer: &mut [u8], made: impl FnOnce(Cosine) -> Vec<f64>) -> Report {
    reshaped(ticket, buffer, |taps| *taps = made(cosine(ticket)))
}

pub const FAULTS: &[Fault] = faults![
    RrcLen, "the span tested before the samples", |ticket, buffer| {
        swapped(ticket, buffer, 6, span_refused(cosine(ticket)))
    };
    RrcLen, "the samples and the span the other way round", |ticket, buffer| {
        let Cosine { samples, span, .. } = cosine(ticket);
        of(Ticket::RrcLen { samples: span, span: samples }, buffer)
    };
    RrcLen, "no tap for the other end", |ticket, buffer| {
        let report = right(ticket, buffer);
        Report { count: report.count.saturating_sub(1), ..report }
    };
    RrcLen, "1025 samples taken", |ticket, buffer| {
        let Cosine { samples, span, .. } = cosine(ticket);
        let taken = samples == 1025 && span_refused(cosine(ticket)).is_none();
        swapped(ticket, buffer, 6, taken.then(|| Report::accepted(1025 * span + 1, 0.0)))
    };
    RrcLen, "a span of 33 taken", |ticket, buffer| {
        let Cosine { samples, span, .. } = cosine(ticket);
        let taken = span == 33 && samples_refused(cosine(ticket)).is_none();
        swapped(ticket, buffer, 6, taken.then(|| Report::accepted(33 * samples + 1, 0.0)))
    };
    RrcLen, "a span of 4 refused", |ticket, buffer| {
        let refused = cosine(ticket).span == 4;
        swapped(ticket, buffer, 0, refused.then(|| Report::range(6, 4.0, 32.0, 4.0)))
    };
    RrcLen, "two samples refused", |ticket, buffer| {
        let refused = cosine(ticket).samples == 2;
        swapped(ticket, buffer, 0, refused.then(|| Report::range(6, 2.0, 1024.0, 2.0)))
    };
    RrcLen, "the count without its values", |ticket, buffer| {
        changed(ticket, buffer, (6, 1), |_| Report::plain(6))
    };
    RrcLen, "the lower half of the samples", |ticket, buffer| {
        let Cosine { samples, span, .. } = cosine(ticket);
        of(Ticket::RrcLen { samples: samples % (1 << 32), span }, buffer)
    };
    RrcLen, "the lower half of the span", |ticket, buffer| {
        let Cosine { samples, span, .. } = cosine(ticket);
        of(Ticket::RrcLen { samples, span: span % (1 << 32) }, buffer)
    };
    RrcLen, "the offered count rounded down", |ticket, buffer| {
        let Cosine { samples, span, .. } = cosine(ticket);
        changed(ticket, buffer, (6, 1), |report| {
            let offered = if report.largest == 32.0 { span } else { samples };
            // The upper 53 bits.
            let lost = 11_u32.saturating_sub(offered.leading_zeros());
            Report { offered: (offered >> lost << lost) as f64, ..report }
        })
    };
    RrcNew, "the span tested before the samples", |ticket, buffer| {
        swapped(ticket, buffer, 6, span_refused(cosine(ticket)))
    };
    RrcNew, "the counts tested before the roll-off", |ticket, buffer| {
        swapped(ticket, buffer, 5, counts_refused(cosine(ticket)))
    };
    RrcNew, "a roll-off of 0.05 refused", |ticket, buffer| {
        let refused = cosine(ticket).rolloff == 0.05;
        swapped(ticket, buffer, 0, refused.then(|| Report::range(5, 0.05, 1.0, 0.05)))
    };
    RrcNew, "a roll-off of 1 refused", |ticket, buffer| {
        let refused = cosine(ticket).rolloff == 1.0;
        swapped(ticket, buffer, 0, refused.then(|| Report::range(5, 0.05, 1.0, 1.0)))
    };
    RrcNew, "the roll-off without its values", |ticket, buffer| {
        changed(ticket, buffer, (5, 1), |_| Report::plain(5))
    };
    RrcNew, "the roll-off told as the Gaussian's bandwidth", |ticket, buffer| {
        changed(ticket, buffer, (5, 1), |report| Report { smallest: 0.2, ..report })
    };
    RrcNew, "the energy in place of the factor", |ticket, _buffer| {
        factored(ticket, NEAR, |taps| energy(taps.iter()))
    };
    RrcNew, "the root of one over the energy", |ticket, _buffer| {
        factored(ticket, NEAR, |taps| libm::sqrt(1.0 / energy(taps.iter())))
    };
    RrcNew, "the energy from the other end", |ticket, _buffer| {
        factored(ticket, NEAR, |taps| 1.0 / libm::sqrt(energy(taps.iter().rev())))
    };
    RrcNew, "one over the sum", |ticket, _buffer| {
        factored(ticket, NEAR, |taps| 1.0 / taps.iter().sum::<f64>())
    };
    RrcNew, "no closed form", |ticket, _buffer| {
        factored(ticket, 0.0, usual)
    };
    RrcNew, "the closed form within 1e-8", |ticket, _buffer| {
        factored(ticket, 1e-8, usual)
    };
    RrcNew, "the closed form within 1e-10", |ticket, _buffer| {
        factored(ticket, 1e-10, usual)
    };
    RrcNew, "no tap for the other end", |ticket, buffer| {
        let report = right(ticket, buffer);
        Report { count: report.count.saturating_sub(1), ..report }
    };
    Rrc, "the span tested before the samples", |ticket, buffer| {
        swapped(ticket, buffer, 6, span_refused(cosine(ticket)))
    };
    Rrc, "the counts tested before the roll-off", |ticket, buffer| {
        swapped(ticket, buffer, 5, counts_refused(cosine(ticket)))
    };
    Rrc, "the length tested before the roll-off", |ticket, buffer| {
        swapped(ticket, buffer, 5, length_refused(ticket))
    };
    Rrc, "the byte length tested after the roll-off", |ticket, buffer| {
        swapped(ticket, buffer, 8, rolloff_refused(cosine(ticket)))
    };
    Rrc, "the byte length tested after the counts", |ticket, buffer| {
        swapped(ticket, buffer, 8, counts_refused(cosine(ticket)))
    };
    Rrc, "the length in bytes", |ticket, buffer| {
        changed(ticket, buffer, (8, 2), |report| {
            if ticket.bytes().is_multiple_of(8) {
                Report::length(8 * report.expected, 8 * report.given)
            } else {
                report
            }
        })
    };
    Rrc, "a longer buffer taken", |ticket, buffer| {
        let cosine = cosine(ticket);
        match count(cosine) {
            Some(count) if ticket.bytes().is_multiple_of(8) && 8 * count < ticket.bytes() => {
                of(Ticket::Rrc { cosine, bytes: 8 * count }, buffer)
            }
            _ => right(ticket, buffer),
        }
    };
    Rrc, "no closed form", |ticket, buffer| {
        remade(ticket, buffer, |cosine| scaled(&raw(cosine, 0.0)))
    };
    Rrc, "the closed form on the point alone", |ticket, buffer| {
        remade(ticket, buffer, |cosine| scaled(&raw(cosine, f64::from_bits(1))))
    };
    Rrc, "the closed form within 1.0001e-9", |ticket, buffer| {
        remade(ticket, buffer, |cosine| scaled(&raw(cosine, 1.0001e-9)))
    };
    Rrc, "the closed form within 0.9999e-9", |ticket, buffer| {
        remade(ticket, buffer, |cosine| scaled(&raw(cosine, 0.9999e-9)))
    };
    Rrc, "divided by the root of the energy", |ticket, buffer| {
        remade(ticket, buffer, |cosine| {
            let taps = raw(cosine, NEAR);
            let root = libm::sqrt(energy(taps.iter()));
            taps.iter().map(|tap| tap / root).collect()
        })
    };
    Rrc, "not scaled", |ticket, buffer| {
        remade(ticket, buffer, |cosine| raw(cosine, NEAR))
    };
    Rrc, "divided by the sum", |ticket, buffer| {
        remade(ticket, buffer, |cosine| {
            let taps = raw(cosine, NEAR);
            let sum: f64 = taps.iter().sum();
            taps.iter().map(|tap| tap / sum).collect()
        })
    };
    Rrc, "the right half mirrored from the left", |ticket, buffer| {
        reshaped(ticket, buffer, |taps| {
            let last = taps.len() - 1;
            for i in 0..taps.len() / 2 {
                taps[last - i] = taps[i];
            }
        })
    };
    Rrc, "the roll-off taken from the other side", |ticket, buffer| {
        remade(ticket, buffer, |cosine| {
            let rolloff = 1.0 - cosine.rolloff;
            scaled(&raw(Cosine { rolloff, ..cosine }, NEAR))
        })
    };
    Rrc, "the last tap left out", |ticket, buffer| {
        reshaped(ticket, buffer, |taps| taps.truncate(taps.len() - 1))
    };
    Rrc, "nothing written", |ticket, _buffer| {
        right(ticket, &mut [])
    };
    Rrc, "element 0 written before a length is refused", |ticket, buffer| {
        spoilt(ticket, buffer, 8)
    };
    Rrc, "a buffer cleared before a count is refused", |ticket, buffer| {
        cleared(ticket, buffer, 6)
    };
];

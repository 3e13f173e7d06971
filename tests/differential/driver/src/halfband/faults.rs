//! Wrong half-bands that the comparison must notice.

use sdrk_blocks::access::Lowpass;
use sdrk_blocks::design::DesignWindow;

use crate::kaiser::faults::{counted_alone, series_refused};
use crate::run::designers;
use crate::run::faults::{
    Fault, bytes_refused, changed, faults, of, reshaped, right, spoilt, swapped,
};
use crate::run::report::Report;
use crate::run::tickets::{Kind, Ticket};

fn asked(ticket: &Ticket) -> (f64, u64) {
    ticket.halfband().expect("a half-band")
}

fn count_refused(taps: u64) -> Option<Report> {
    (taps % 4 != 3 || taps > 1 << 24).then(|| Report::plain(6))
}

fn beta_refused(beta: f64) -> Option<Report> {
    (!(0.0..f64::INFINITY).contains(&beta)).then(|| Report::plain(4))
}

/// Every beta above 713 refused, though some of them settle.
fn above_refused(ticket: &Ticket, buffer: &mut [u8]) -> Report {
    let above = asked(ticket).0 > 713.0;
    swapped(ticket, buffer, 0, above.then(|| Report::plain(16)))
}

/// The low-pass that a half-band is made of.
fn lowpass(beta: f64, taps: usize) -> Lowpass {
    Lowpass::new(0.25, 1.0, DesignWindow::Kaiser { beta }, taps).expect("a low-pass")
}

/// A half-band whose tap k is that of the low-pass at `place(k, last)`, before the second division.
fn unscaled(beta: f64, count: usize, place: fn(usize, usize) -> usize) -> Vec<f64> {
    let lowpass = lowpass(beta, count);
    let middle = (count - 1) / 2;
    let tap = |k: usize| {
        if k != middle && k.abs_diff(middle).is_multiple_of(2) {
            0.0
        } else {
            lowpass.tap(place(k, count - 1))
        }
    };
    (0..count).map(tap).collect()
}

fn sum(taps: &[f64]) -> f64 {
    taps.iter().fold(0.0, |sum, tap| sum + tap)
}

fn left(k: usize, last: usize) -> usize {
    k.min(last - k)
}

/// The half-band divided by its sum, in place of the right one.
fn divided(beta: f64, taps: &mut [f64], place: fn(usize, usize) -> usize) {
    let all = unscaled(beta, taps.len(), place);
    let sum = sum(&all);
    for (tap, value) in taps.iter_mut().zip(all) {
        *tap = value / sum;
    }
}

pub const FAULTS: &[Fault] = faults![
    HalfbandNew, "the beta tested before the count", |ticket, buffer| {
        swapped(ticket, buffer, 6, beta_refused(asked(ticket).0))
    };
    HalfbandNew, "16777215 taps refused", |ticket, buffer| {
        let report = right(ticket, buffer);
        if report.number == 4 && asked(ticket).1 == (1 << 24) - 1 { Report::plain(6) } else { report }
    };
    HalfbandNew, "16777219 taps taken", |ticket, buffer| {
        let (beta, taps) = asked(ticket);
        let other = beta_refused(beta);
        swapped(ticket, buffer, 6, other.filter(|_| taps == (1 << 24) + 3))
    };
    HalfbandNew, "the lower half of a count", |ticket, buffer| {
        let (beta, taps) = asked(ticket);
        let lower = taps % (1 << 32);
        of(Ticket::HalfbandNew { beta, taps: if lower < 5000 { lower } else { taps } }, buffer)
    };
    HalfbandNew, "1 mod 4 taken", |ticket, buffer| {
        let (beta, taps) = asked(ticket);
        let taken = taps % 4 == 1 && taps > 1 && taps < 1000 && beta_refused(beta).is_none();
        swapped(ticket, buffer, 6, taken.then(|| Report::accepted(taps, 1.0)))
    };
    HalfbandNew, "the first divisor told", |ticket, buffer| {
        let report = right(ticket, buffer);
        let (beta, taps) = asked(ticket);
        if report.is_accepted() {
            Report { value: lowpass(beta, taps as usize).divisor(), ..report }
        } else {
            report
        }
    };
    HalfbandNew, "the second sum before the mirror", |ticket, buffer| {
        let report = right(ticket, buffer);
        let (beta, taps) = asked(ticket);
        if report.is_accepted() {
            Report { value: sum(&unscaled(beta, taps as usize, |k, _| k)), ..report }
        } else {
            report
        }
    };
    HalfbandNew, "4 in place of 16", |ticket, buffer| {
        changed(ticket, buffer, (16, 0), |_| Report::plain(4))
    };
    HalfbandNew, "10 before 16", |ticket, buffer| {
        changed(ticket, buffer, (16, 0), |_| Report::plain(10))
    };
    HalfbandNew, "settled by the count alone", |ticket, buffer| {
        counted_alone(ticket, buffer, asked(ticket).0)
    };
    HalfbandNew, "settled up to 713 alone", above_refused;
    HalfbandNew, "the series tested before the count", |ticket, buffer| {
        swapped(ticket, buffer, 6, series_refused(asked(ticket).0))
    };
    HalfbandNew, "the series tested before the beta", |ticket, buffer| {
        swapped(ticket, buffer, 4, series_refused(asked(ticket).0))
    };
    HalfbandNew, "a beta of -0.0 refused", |ticket, buffer| {
        let refused = asked(ticket).0.to_bits() == 1 << 63;
        swapped(ticket, buffer, 0, refused.then(|| Report::plain(4)))
    };
    HalfbandNew, "a bad beta with its values", |ticket, buffer| {
        let beta = asked(ticket).0;
        changed(ticket, buffer, (4, 0), |_| Report::range(4, 0.0, f64::INFINITY, beta))
    };
    HalfbandNew, "everything refused", |_ticket, _buffer| {
        Report::plain(6)
    };
    Halfband, "mirrored right to left", |ticket, buffer| {
        let beta = asked(ticket).0;
        reshaped(ticket, buffer, |taps| divided(beta, taps, |k, last| k.max(last - k)))
    };
    Halfband, "not mirrored", |ticket, buffer| {
        let beta = asked(ticket).0;
        reshaped(ticket, buffer, |taps| divided(beta, taps, |k, _| k))
    };
    Halfband, "mirrored after the second sum", |ticket, buffer| {
        let beta = asked(ticket).0;
        reshaped(ticket, buffer, |taps| {
            let early = sum(&unscaled(beta, taps.len(), |k, _| k));
            let all = unscaled(beta, taps.len(), left);
            *taps = all.iter().map(|tap| tap / early).collect();
        })
    };
    Halfband, "not divided a second time", |ticket, buffer| {
        let beta = asked(ticket).0;
        reshaped(ticket, buffer, |taps| *taps = unscaled(beta, taps.len(), left))
    };
    Halfband, "taps as products with one over the sum", |ticket, buffer| {
        let beta = asked(ticket).0;
        reshaped(ticket, buffer, |taps| {
            let all = unscaled(beta, taps.len(), left);
            let factor = 1.0 / sum(&all);
            *taps = all.iter().map(|tap| tap * factor).collect();
        })
    };
    Halfband, "no tap set to 0", |ticket, buffer| {
        let beta = asked(ticket).0;
        reshaped(ticket, buffer, |taps| {
            let lowpass = lowpass(beta, taps.len());
            let last = taps.len() - 1;
            for (k, tap) in taps.iter_mut().enumerate() {
                if *tap == 0.0 {
                    *tap = lowpass.tap(left(k, last));
                }
            }
        })
    };
    Halfband, "the middle set to 0 too", |ticket, buffer| {
        reshaped(ticket, buffer, |taps| {
            let middle = taps.len() / 2;
            taps[middle] = 0.0;
        })
    };
    Halfband, "zeros of the other sign", |ticket, buffer| {
        reshaped(ticket, buffer, |taps| {
            for tap in taps.iter_mut().filter(|tap| **tap == 0.0) {
                *tap = -*tap;
            }
        })
    };
    Halfband, "the first divisor told", |ticket, buffer| {
        let report = right(ticket, buffer);
        if report.is_accepted() {
            Report { value: lowpass(asked(ticket).0, report.count as usize).divisor(), ..report }
        } else {
            report
        }
    };
    Halfband, "taps all 1/n", |ticket, buffer| {
        reshaped(ticket, buffer, |taps| *taps = vec![1.0 / taps.len() as f64; taps.len()])
    };
    Halfband, "the left half alone written", |ticket, buffer| {
        reshaped(ticket, buffer, |taps| taps.truncate(taps.len() / 2 + 1))
    };
    Halfband, "element 0 alone written", |ticket, buffer| {
        reshaped(ticket, buffer, |taps| taps.truncate(1))
    };
    Halfband, "nothing written", |ticket, _buffer| {
        designers::rust(ticket).report
    };
    Halfband, "10 for every ticket", |_ticket, _buffer| {
        Report::plain(10)
    };
    Halfband, "10 before 16", |ticket, buffer| {
        changed(ticket, buffer, (16, 0), |_| Report::plain(10))
    };
    Halfband, "settled by the count alone", |ticket, buffer| {
        counted_alone(ticket, buffer, asked(ticket).0)
    };
    Halfband, "settled up to 713 alone", above_refused;
    Halfband, "the series tested before the byte length", |ticket, buffer| {
        swapped(ticket, buffer, 8, series_refused(asked(ticket).0))
    };
    Halfband, "the series tested before the beta", |ticket, buffer| {
        swapped(ticket, buffer, 4, series_refused(asked(ticket).0))
    };
    Halfband, "element 0 written before a series is refused", |ticket, buffer| {
        spoilt(ticket, buffer, 16)
    };
    Halfband, "a buffer overwritten before a beta is refused", |ticket, buffer| {
        let report = right(ticket, buffer);
        if report.number == 4 {
            buffer.fill(0);
        }
        report
    };
    Halfband, "element 0 written before a count is refused", |ticket, buffer| {
        spoilt(ticket, buffer, 6)
    };
    Halfband, "the byte length tested after the count", |ticket, buffer| {
        swapped(ticket, buffer, 8, count_refused(asked(ticket).1))
    };
    Halfband, "the byte length tested after the beta", |ticket, buffer| {
        swapped(ticket, buffer, 8, beta_refused(asked(ticket).0))
    };
    Halfband, "the byte length counted in elements", |ticket, buffer| {
        changed(ticket, buffer, (8, 2), |report| {
            Report::length(report.expected / 8, report.given / 8)
        })
    };
    Halfband, "a rest of bytes left out", |ticket, buffer| {
        let (beta, taps) = asked(ticket);
        match bytes_refused(ticket.bytes(), 8) {
            Some(_) => of(Ticket::Halfband { beta, bytes: 8 * taps }, buffer),
            None => right(ticket, buffer),
        }
    };
    Halfband, "the beta tested before the count", |ticket, buffer| {
        swapped(ticket, buffer, 6, beta_refused(asked(ticket).0))
    };
];

//! Wrong low-passes that the comparison must notice.

use std::f64::consts::PI;

use crate::kaiser;
use crate::kaiser::faults::counted_alone;
use crate::kaiser::settling::{Series, argument, is_settled, series};
use crate::run::designers::{self, Answer};
use crate::run::draw::LARGEST_BETA;
use crate::run::faults::{Fault, bad, changed, faults, of, right, spoilt, swapped, write};
use crate::run::report::Report;
use crate::run::tickets::{Band, Kind, LARGEST_COUNT, Ticket};

fn band(ticket: &Ticket) -> Band {
    ticket.band().expect("a low-pass")
}

/// The low-pass's refusals, each as if it were tested first.
pub fn rate_refused(rate: f64) -> Option<Report> {
    bad(rate).then(|| Report::plain(1))
}

fn cutoff_refused(band: Band) -> Option<Report> {
    let fraction = band.cutoff / band.rate;
    let taken = fraction > 0.0 && fraction < 0.5;
    (!taken).then(|| Report::range(2, 0.0, band.rate / 2.0, band.cutoff))
}

fn count_refused(taps: u64) -> Option<Report> {
    (taps == 0 || taps > 1 << 24).then(|| Report::plain(6))
}

fn beta_refused(band: Band) -> Option<Report> {
    let taken = band.beta >= 0.0 && band.beta < f64::INFINITY;
    (band.window == 3 && !taken).then(|| Report::plain(4))
}

fn series_refused(band: Band) -> Option<Report> {
    kaiser::faults::series_refused(band.beta).filter(|_| band.window == 3)
}

/// The count of taps that a low-pass ticket asks for.
fn taps(ticket: &Ticket) -> u64 {
    match *ticket {
        Ticket::LowpassNew { taps, .. } => taps,
        _ => ticket.bytes() / 8,
    }
}

/// 16 for one tap too.
fn one_tap_refused(ticket: &Ticket, buffer: &mut [u8]) -> Report {
    let other = series_refused(band(ticket)).filter(|_| taps(ticket) == 1);
    swapped(ticket, buffer, 0, other)
}

/// Every beta above 713 refused, though some of them settle.
fn above_refused(ticket: &Ticket, buffer: &mut [u8]) -> Report {
    let above = band(ticket).window == 3 && band(ticket).beta > 713.0 && taps(ticket) > 1;
    swapped(ticket, buffer, 0, above.then(|| Report::plain(16)))
}

/// The elements' series tried, and that at beta not.
fn elements_alone(ticket: &Ticket, buffer: &mut [u8]) -> Report {
    let (beta, taps) = (band(ticket).beta, taps(ticket));
    changed(ticket, buffer, (16, 0), |report| {
        if (0..taps).all(|i| is_settled(argument(beta, taps - 1, i))) {
            Report::plain(10)
        } else {
            report
        }
    })
}

/// The taps of a Hamming low-pass before they are divided by their sum.
fn raw_hamming(band: Band, count: u64) -> Vec<f64> {
    let fraction = band.cutoff / band.rate;
    let last = (count - 1) as f64;
    let raw = |i: f64| {
        let x = 2.0 * fraction * (i - last / 2.0);
        let sinc = if x == 0.0 {
            1.0
        } else {
            libm::sin(PI * x) / (PI * x)
        };
        let window = if count == 1 {
            1.0
        } else {
            0.54 - 0.46 * libm::cos(2.0 * PI * i / last)
        };
        2.0 * fraction * sinc * window
    };
    (0..count).map(|i| raw(i as f64)).collect()
}

pub const FAULTS: &[Fault] = faults![
    LowpassNew, "the cutoff tested before the rate", |ticket, buffer| {
        swapped(ticket, buffer, 1, cutoff_refused(band(ticket)))
    };
    LowpassNew, "the count tested before the cutoff", |ticket, buffer| {
        swapped(ticket, buffer, 2, count_refused(taps(ticket)))
    };
    LowpassNew, "the beta tested before the count", |ticket, buffer| {
        swapped(ticket, buffer, 6, beta_refused(band(ticket)))
    };
    LowpassNew, "an unknown window tested after the rate", |ticket, buffer| {
        swapped(ticket, buffer, 7, rate_refused(band(ticket).rate))
    };
    LowpassNew, "an unknown window taken as Kaiser", |ticket, buffer| {
        let band = band(ticket);
        of(Ticket::LowpassNew {
            band: Band { window: band.window.min(3), ..band },
            taps: taps(ticket),
        }, buffer)
    };
    LowpassNew, "the lower half of a window's code", |ticket, buffer| {
        let band = band(ticket);
        of(Ticket::LowpassNew {
            band: Band { window: band.window % (1 << 32), ..band },
            taps: taps(ticket),
        }, buffer)
    };
    LowpassNew, "the lower half of a count", |ticket, buffer| {
        // Counts that would take long stay as they are.
        let lower = taps(ticket) % (1 << 32);
        let taps = if lower < 5000 { lower } else { taps(ticket) };
        of(Ticket::LowpassNew { band: band(ticket), taps }, buffer)
    };
    LowpassNew, "16777216 taps refused", |ticket, buffer| {
        let report = right(ticket, buffer);
        if report.number == 4 && taps(ticket) == 1 << 24 { Report::plain(6) } else { report }
    };
    LowpassNew, "16777217 taps taken", |ticket, buffer| {
        let report = right(ticket, buffer);
        match beta_refused(band(ticket)) {
            Some(other) if report.number == 6 && taps(ticket) == LARGEST_COUNT => other,
            _ => report,
        }
    };
    LowpassNew, "the whole rate as the largest cutoff", |ticket, buffer| {
        changed(ticket, buffer, (2, 1), |report| Report { largest: band(ticket).rate, ..report })
    };
    LowpassNew, "the quotient as the cutoff offered", |ticket, buffer| {
        let band = band(ticket);
        changed(ticket, buffer, (2, 1), |report| Report {
            offered: band.cutoff / band.rate,
            ..report
        })
    };
    LowpassNew, "the cutoff judged by itself, not as a quotient", |ticket, buffer| {
        let band = band(ticket);
        let inside = band.cutoff > 0.0 && band.cutoff < band.rate / 2.0;
        let report = right(ticket, buffer);
        if report.is_accepted() && !inside {
            Report::range(2, 0.0, band.rate / 2.0, band.cutoff)
        } else {
            report
        }
    };
    LowpassNew, "a quotient that underflows taken as no gain", |ticket, buffer| {
        let band = band(ticket);
        let inside = band.cutoff > 0.0 && band.cutoff < band.rate / 2.0;
        changed(ticket, buffer, (2, 1), |report| if inside { Report::plain(10) } else { report })
    };
    LowpassNew, "a beta of -0.0 refused", |ticket, buffer| {
        let band = band(ticket);
        let refused = band.window == 3 && band.beta.to_bits() == 1 << 63;
        swapped(ticket, buffer, 0, refused.then(|| Report::plain(4)))
    };
    LowpassNew, "a negative sum refused", |ticket, buffer| {
        let report = right(ticket, buffer);
        if report.value < 0.0 { Report::plain(10) } else { report }
    };
    LowpassNew, "a sum of 0 accepted", |ticket, buffer| {
        let hann = band(ticket).window == 0;
        changed(ticket, buffer, (10, 0), |report| {
            if hann { Report::accepted(taps(ticket), 0.0) } else { report }
        })
    };
    LowpassNew, "10 before 16", |ticket, buffer| {
        changed(ticket, buffer, (16, 0), |_| Report::plain(10))
    };
    LowpassNew, "4 in place of 16", |ticket, buffer| {
        changed(ticket, buffer, (16, 0), |_| Report::plain(4))
    };
    LowpassNew, "settled by the count alone", |ticket, buffer| {
        counted_alone(ticket, buffer, band(ticket).beta)
    };
    LowpassNew, "settled by the elements alone", elements_alone;
    LowpassNew, "settled up to 714", |ticket, buffer| {
        let taken = band(ticket).beta <= 714.0;
        swapped(ticket, buffer, 16, taken.then(|| Report::plain(10)))
    };
    LowpassNew, "settled up to 713 alone", above_refused;
    LowpassNew, "one tap refused with 16", one_tap_refused;
    LowpassNew, "two taps taken as one", |ticket, buffer| {
        let two = taps(ticket) == 2;
        swapped(ticket, buffer, 16, two.then(|| Report::plain(10)))
    };
    LowpassNew, "the series tested before the beta", |ticket, buffer| {
        swapped(ticket, buffer, 4, series_refused(band(ticket)))
    };
    LowpassNew, "the series tested before the count", |ticket, buffer| {
        swapped(ticket, buffer, 6, series_refused(band(ticket)))
    };
    LowpassNew, "the series tested before the cutoff", |ticket, buffer| {
        swapped(ticket, buffer, 2, series_refused(band(ticket)))
    };
    LowpassNew, "the series tested before the rate", |ticket, buffer| {
        swapped(ticket, buffer, 1, series_refused(band(ticket)))
    };
    LowpassNew, "a beta that isn't used judged by its series", |ticket, buffer| {
        let other = series_refused(Band { window: 3, ..band(ticket) });
        swapped(ticket, buffer, 0, other.filter(|_| taps(ticket) > 1))
    };
    LowpassNew, "16 with what the series reached", |ticket, buffer| {
        let Series { sum, terms, .. } = series(band(ticket).beta);
        changed(ticket, buffer, (16, 0), |report| Report { count: terms, value: sum, ..report })
    };
    LowpassNew, "16 with its values", |ticket, buffer| {
        let beta = band(ticket).beta;
        changed(ticket, buffer, (16, 0), |_| Report::range(16, 0.0, LARGEST_BETA, beta))
    };
    LowpassNew, "the sum from the other end", |ticket, buffer| {
        let report = right(ticket, buffer);
        if report.is_accepted() && band(ticket).window == 1 {
            let raw = raw_hamming(band(ticket), report.count);
            Report { value: raw.iter().rev().fold(0.0, |sum, tap| sum + tap), ..report }
        } else {
            report
        }
    };
    Lowpass, "element 0 written before a refusal", |ticket, buffer| {
        let report = right(ticket, buffer);
        if report.number == 10 {
            write(&[1.0], buffer);
        }
        report
    };
    Lowpass, "element 0 written before a cutoff is refused", |ticket, buffer| {
        let report = right(ticket, buffer);
        if report.number == 2 {
            write(&[1.0], buffer);
        }
        report
    };
    Lowpass, "element 0 written before a series is refused", |ticket, buffer| {
        spoilt(ticket, buffer, 16)
    };
    Lowpass, "the last byte written before a length is refused", |ticket, buffer| {
        let report = right(ticket, buffer);
        if let (8, Some(last)) = (report.number, buffer.last_mut()) {
            *last = !*last;
        }
        report
    };
    Lowpass, "a refused buffer cleared", |ticket, buffer| {
        let report = right(ticket, buffer);
        if !report.is_accepted() {
            buffer.fill(0);
        }
        report
    };
    Lowpass, "nothing written", |ticket, _buffer| {
        designers::rust(ticket).report
    };
    Lowpass, "element 0 alone written", |ticket, buffer| {
        let Answer { report, taps, .. } = designers::rust(ticket);
        write(&taps[..taps.len().min(1)], buffer);
        report
    };
    Lowpass, "the last tap left out", |ticket, buffer| {
        let Answer { report, taps, .. } = designers::rust(ticket);
        write(&taps[..taps.len().saturating_sub(1)], buffer);
        report
    };
    Lowpass, "taps all 1/n", |ticket, buffer| {
        let Answer { report, taps, .. } = designers::rust(ticket);
        write(&vec![1.0 / taps.len() as f64; taps.len()], buffer);
        report
    };
    Lowpass, "the right half mirrored from the left", |ticket, buffer| {
        let Answer { report, mut taps, .. } = designers::rust(ticket);
        let count = taps.len();
        for i in 0..count / 2 {
            taps[count - 1 - i] = taps[i];
        }
        write(&taps, buffer);
        report
    };
    Lowpass, "the bytes the other way round", |ticket, buffer| {
        let Answer { report, taps, .. } = designers::rust(ticket);
        for (bytes, tap) in buffer.chunks_exact_mut(8).zip(&taps) {
            bytes.copy_from_slice(&tap.to_be_bytes());
        }
        report
    };
    Lowpass, "taps as products with one over the sum", |ticket, buffer| {
        let report = right(ticket, buffer);
        if report.is_accepted() && band(ticket).window == 1 {
            let factor = 1.0 / report.value;
            let raw = raw_hamming(band(ticket), report.count);
            write(&raw.iter().map(|tap| tap * factor).collect::<Vec<_>>(), buffer);
        }
        report
    };
    Lowpass, "the byte length counted in elements", |ticket, buffer| {
        changed(ticket, buffer, (8, 2), |report| Report {
            expected: report.expected / 8,
            given: report.given / 8,
            ..report
        })
    };
    Lowpass, "the whole length above expected", |ticket, buffer| {
        changed(ticket, buffer, (8, 2), |report| Report { expected: report.expected + 8, ..report })
    };
    Lowpass, "a rest of 4 bytes taken", |ticket, buffer| {
        match *ticket {
            Ticket::Lowpass { band, bytes } if bytes % 8 == 4 => {
                of(Ticket::Lowpass { band, bytes: bytes - 4 }, buffer)
            }
            _ => right(ticket, buffer),
        }
    };
    Lowpass, "an unknown window tested after the length", |ticket, buffer| {
        let bytes = ticket.bytes();
        let length = Report::length(bytes - bytes % 8, bytes);
        swapped(ticket, buffer, 7, (!bytes.is_multiple_of(8)).then_some(length))
    };
    Lowpass, "the length tested after the rate", |ticket, buffer| {
        swapped(ticket, buffer, 8, rate_refused(band(ticket).rate))
    };
    Lowpass, "the length tested after the beta", |ticket, buffer| {
        swapped(ticket, buffer, 8, beta_refused(band(ticket)))
    };
    Lowpass, "the cutoff tested before the rate", |ticket, buffer| {
        swapped(ticket, buffer, 1, cutoff_refused(band(ticket)))
    };
    Lowpass, "the count tested before the cutoff", |ticket, buffer| {
        swapped(ticket, buffer, 2, count_refused(taps(ticket)))
    };
    Lowpass, "the beta tested before the count", |ticket, buffer| {
        swapped(ticket, buffer, 6, beta_refused(band(ticket)))
    };
    Lowpass, "a beta judged that isn't used", |ticket, buffer| {
        let band = band(ticket);
        let other = beta_refused(Band { window: 3, ..band });
        swapped(ticket, buffer, 0, other)
    };
    Lowpass, "10 before 16", |ticket, buffer| {
        changed(ticket, buffer, (16, 0), |_| Report::plain(10))
    };
    Lowpass, "NaN taps in place of 16", |ticket, buffer| {
        let count = taps(ticket);
        let report = right(ticket, buffer);
        if report.number == 16 {
            write(&vec![f64::NAN; count as usize], buffer);
            Report::accepted(count, f64::NAN)
        } else {
            report
        }
    };
    Lowpass, "settled by the count alone", |ticket, buffer| {
        counted_alone(ticket, buffer, band(ticket).beta)
    };
    Lowpass, "settled by the elements alone", elements_alone;
    Lowpass, "settled up to 713 alone", above_refused;
    Lowpass, "one tap refused with 16", one_tap_refused;
    Lowpass, "the series tested before the length", |ticket, buffer| {
        swapped(ticket, buffer, 8, series_refused(band(ticket)))
    };
    Lowpass, "the series tested before the count", |ticket, buffer| {
        swapped(ticket, buffer, 6, series_refused(band(ticket)))
    };
    Lowpass, "the series tested before the beta", |ticket, buffer| {
        swapped(ticket, buffer, 4, series_refused(band(ticket)))
    };
    Lowpass, "10 for every ticket", |_ticket, _buffer| {
        Report::plain(10)
    };
    Lowpass, "no bytes accepted", |ticket, buffer| {
        changed(ticket, buffer, (6, 0), |_| Report::default())
    };
];

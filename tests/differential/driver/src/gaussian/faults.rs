//! Wrong Gaussian pulses that the comparison must notice.

use std::f64::consts::{LN_2, PI};

use crate::run::designers;
use crate::run::faults::{Fault, changed, faults, of, reshaped, right, spoilt, swapped};
use crate::run::report::Report;
use crate::run::tickets::{Kind, Pulse, Ticket};

fn pulse(ticket: &Ticket) -> Pulse {
    ticket.pulse().expect("a pulse")
}

/// The refusals, each as if it were tested first.
fn bt_refused(pulse: Pulse) -> Option<Report> {
    (!(0.2..=1.0).contains(&pulse.bt)).then(|| Report::range(5, 0.2, 1.0, pulse.bt))
}

fn span_refused(pulse: Pulse) -> Option<Report> {
    (!(2..=8).contains(&pulse.span)).then(|| Report::range(6, 2.0, 8.0, pulse.span as f64))
}

fn samples_refused(pulse: Pulse) -> Option<Report> {
    let most = ((1 << 24) - 1) / pulse.span.max(1);
    (!(2..=most).contains(&pulse.samples))
        .then(|| Report::range(6, 2.0, most as f64, pulse.samples as f64))
}

/// The number of taps of a pulse that is taken.
fn count(pulse: Pulse) -> Option<u64> {
    let refused = span_refused(pulse).or(samples_refused(pulse));
    refused.is_none().then(|| pulse.samples * pulse.span + 1)
}

fn length_refused(ticket: &Ticket) -> Option<Report> {
    let given = ticket.bytes() / 8;
    let count = count(pulse(ticket)).filter(|&count| count != given)?;
    ticket
        .bytes()
        .is_multiple_of(8)
        .then(|| Report::length(count, given))
}

/// The pulse with another factor, place or exponential.
fn raw(pulse: Pulse, factor: f64, value: fn(f64, f64) -> f64) -> Vec<f64> {
    let last = pulse.samples * pulse.span;
    (0..=last)
        .map(|i| {
            value(
                factor,
                (i as f64 - last as f64 / 2.0) / pulse.samples as f64,
            )
        })
        .collect()
}

fn divided(taps: Vec<f64>) -> Vec<f64> {
    let sum = taps.iter().fold(0.0, |sum, tap| sum + tap);
    taps.iter().map(|tap| tap / sum).collect()
}

fn factor(bt: f64) -> f64 {
    2.0 * PI * PI * bt * bt / LN_2
}

fn usual(factor: f64, x: f64) -> f64 {
    libm::exp(-(factor * (x * x)))
}

pub const FAULTS: &[Fault] = faults![
    GaussianNew, "the span tested after the samples", |ticket, buffer| {
        let pulse = pulse(ticket);
        let other = span_refused(pulse).and(samples_refused(pulse));
        swapped(ticket, buffer, 6, other)
    };
    GaussianNew, "the span tested before the bandwidth", |ticket, buffer| {
        swapped(ticket, buffer, 5, span_refused(pulse(ticket)))
    };
    GaussianNew, "the samples tested before the bandwidth", |ticket, buffer| {
        swapped(ticket, buffer, 5, samples_refused(pulse(ticket)))
    };
    GaussianNew, "one sample more taken", |ticket, buffer| {
        let pulse = pulse(ticket);
        changed(ticket, buffer, (6, 1), |report| {
            if report.largest > 8.0 && report.offered == report.largest + 1.0 {
                Report::accepted(pulse.samples * pulse.span + 1, 1.0)
            } else {
                report
            }
        })
    };
    GaussianNew, "the most samples not rounded down", |ticket, buffer| {
        let pulse = pulse(ticket);
        changed(ticket, buffer, (6, 1), |report| {
            if report.largest > 8.0 {
                Report { largest: 16_777_215.0 / pulse.span as f64, ..report }
            } else {
                report
            }
        })
    };
    GaussianNew, "2^24 divided by the span", |ticket, buffer| {
        let pulse = pulse(ticket);
        changed(ticket, buffer, (6, 1), |report| {
            if report.largest > 8.0 {
                Report { largest: ((1 << 24) / pulse.span) as f64, ..report }
            } else {
                report
            }
        })
    };
    GaussianNew, "the count without its values", |ticket, buffer| {
        changed(ticket, buffer, (6, 1), |_| Report::plain(6))
    };
    GaussianNew, "the bandwidth without its values", |ticket, buffer| {
        changed(ticket, buffer, (5, 1), |_| Report::plain(5))
    };
    GaussianNew, "the lower half of the samples", |ticket, buffer| {
        let pulse = pulse(ticket);
        let samples = pulse.samples % (1 << 32);
        let samples = if samples < 600 { samples } else { pulse.samples };
        of(Ticket::GaussianNew { pulse: Pulse { samples, ..pulse } }, buffer)
    };
    GaussianNew, "the lower half of the span", |ticket, buffer| {
        let pulse = pulse(ticket);
        let span = pulse.span % (1 << 32);
        of(Ticket::GaussianNew { pulse: Pulse { span, ..pulse } }, buffer)
    };
    GaussianNew, "a bandwidth of 0.2 refused", |ticket, buffer| {
        let refused = pulse(ticket).bt == 0.2;
        swapped(ticket, buffer, 0, refused.then(|| Report::range(5, 0.2, 1.0, 0.2)))
    };
    GaussianNew, "a NaN as the smallest bandwidth", |ticket, buffer| {
        changed(ticket, buffer, (5, 1), |report| {
            Report { offered: report.offered.max(-1e300), ..report }
        })
    };
    GaussianNew, "two samples refused", |ticket, buffer| {
        let pulse = pulse(ticket);
        let other = samples_refused(Pulse { samples: 1, ..pulse });
        let other = other.map(|report| Report { offered: 2.0, ..report });
        swapped(ticket, buffer, 0, other.filter(|_| pulse.samples == 2))
    };
    GaussianNew, "no tap for the other end", |ticket, buffer| {
        let report = right(ticket, buffer);
        Report { count: report.count.saturating_sub(1), ..report }
    };
    GaussianNew, "a sum below 1 refused", |ticket, buffer| {
        let report = right(ticket, buffer);
        if report.is_accepted() && report.value < 1.0 { Report::plain(10) } else { report }
    };
    Gaussian, "the span tested after the samples", |ticket, buffer| {
        let pulse = pulse(ticket);
        let other = span_refused(pulse).and(samples_refused(pulse));
        swapped(ticket, buffer, 6, other)
    };
    Gaussian, "the bandwidth tested last", |ticket, buffer| {
        let pulse = pulse(ticket);
        let other = span_refused(pulse).or(samples_refused(pulse)).or(length_refused(ticket));
        swapped(ticket, buffer, 5, other)
    };
    Gaussian, "the length tested before the bandwidth", |ticket, buffer| {
        swapped(ticket, buffer, 5, length_refused(ticket))
    };
    Gaussian, "the byte length tested after the bandwidth", |ticket, buffer| {
        swapped(ticket, buffer, 8, bt_refused(pulse(ticket)))
    };
    Gaussian, "the byte length tested after the counts", |ticket, buffer| {
        let pulse = pulse(ticket);
        swapped(ticket, buffer, 8, span_refused(pulse).or(samples_refused(pulse)))
    };
    Gaussian, "the length in bytes", |ticket, buffer| {
        changed(ticket, buffer, (8, 2), |report| {
            if ticket.bytes().is_multiple_of(8) {
                Report::length(8 * report.expected, 8 * report.given)
            } else {
                report
            }
        })
    };
    Gaussian, "a longer buffer taken", |ticket, buffer| {
        let pulse = pulse(ticket);
        match count(pulse) {
            Some(count) if ticket.bytes().is_multiple_of(8) && 8 * count < ticket.bytes() => {
                of(Ticket::Gaussian { pulse, bytes: 8 * count }, buffer)
            }
            _ => right(ticket, buffer),
        }
    };
    Gaussian, "the exponential of another library", |ticket, buffer| {
        let pulse = pulse(ticket);
        reshaped(ticket, buffer, |taps| {
            *taps = divided(raw(pulse, factor(pulse.bt), |a, x| (-(a * (x * x))).exp()));
        })
    };
    Gaussian, "the exponent in another order", |ticket, buffer| {
        let pulse = pulse(ticket);
        reshaped(ticket, buffer, |taps| {
            *taps = divided(raw(pulse, factor(pulse.bt), |a, x| libm::exp(-(a * x * x))));
        })
    };
    Gaussian, "the bandwidth squared first", |ticket, buffer| {
        let pulse = pulse(ticket);
        reshaped(ticket, buffer, |taps| {
            let a = 2.0 * PI * PI * (pulse.bt * pulse.bt) / LN_2;
            *taps = divided(raw(pulse, a, usual));
        })
    };
    Gaussian, "taps as products with one over the sum", |ticket, buffer| {
        let pulse = pulse(ticket);
        let divisor = designers::rust(ticket).report.value;
        reshaped(ticket, buffer, |taps| {
            let factor = factor(pulse.bt);
            *taps = raw(pulse, factor, usual).iter().map(|tap| tap * (1.0 / divisor)).collect();
        })
    };
    Gaussian, "not divided", |ticket, buffer| {
        let pulse = pulse(ticket);
        reshaped(ticket, buffer, |taps| *taps = raw(pulse, factor(pulse.bt), usual))
    };
    Gaussian, "the sum from the other end", |ticket, buffer| {
        let pulse = pulse(ticket);
        let report = right(ticket, buffer);
        if report.is_accepted() {
            let all = raw(pulse, factor(pulse.bt), usual);
            let middle = all.len() / 2;
            // The pulse is a mirror image, so the sum is begun at its middle.
            let sides = all[middle + 1..].iter().fold(0.0, |sum, tap| sum + tap);
            Report { value: all[middle] + 2.0 * sides, ..report }
        } else {
            report
        }
    };
    Gaussian, "taps all 1/n", |ticket, buffer| {
        reshaped(ticket, buffer, |taps| *taps = vec![1.0 / taps.len() as f64; taps.len()])
    };
    Gaussian, "the last tap left out", |ticket, buffer| {
        reshaped(ticket, buffer, |taps| taps.truncate(taps.len() - 1))
    };
    Gaussian, "element 0 alone written", |ticket, buffer| {
        reshaped(ticket, buffer, |taps| taps.truncate(1))
    };
    Gaussian, "nothing written", |ticket, _buffer| {
        designers::rust(ticket).report
    };
    Gaussian, "10 for every ticket", |_ticket, _buffer| {
        Report::plain(10)
    };
    Gaussian, "element 0 written before a length is refused", |ticket, buffer| {
        spoilt(ticket, buffer, 8)
    };
    Gaussian, "a buffer cleared before a count is refused", |ticket, buffer| {
        let report = right(ticket, buffer);
        if report.number == 6 {
            buffer.fill(0);
        }
        report
    };
];

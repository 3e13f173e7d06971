//! Wrong gains and bandwidths of windows that the comparison must notice.

use crate::run::faults::{Fault, changed, faults, of, right, swapped};
use crate::run::report::Report;
use crate::run::tickets::{Kind, Samples, Ticket};
use crate::windows::gain::told;

fn samples(ticket: &Ticket) -> &Samples {
    ticket.samples().expect("a window's samples")
}

/// The right answer, its gain and bandwidth worked out of the number of samples, their sum and that
/// of their squares in another way.
fn reckoned(ticket: &Ticket, figures: impl FnOnce(f64, f64, f64) -> (f64, f64)) -> Report {
    let report = right(ticket, &mut []);
    if report.count == 0 {
        return report;
    }
    let (mut sum, mut squares) = (0.0, 0.0);
    for &sample in &samples(ticket).elements {
        let sample = f64::from(sample);
        sum += sample;
        squares += sample * sample;
    }
    told(report.count, figures(report.count as f64, sum, squares))
}

/// The same, the sums being worked out in another way.
fn summed(ticket: &Ticket, sums: impl FnOnce(&[f32]) -> (f64, f64)) -> Report {
    let (sum, squares) = sums(&samples(ticket).elements);
    reckoned(ticket, |n, _, _| (sum / n, n * squares / (sum * sum)))
}

pub const FAULTS: &[Fault] = faults![
    WindowGain, "summed in single precision", |ticket, _buffer| {
        summed(ticket, |samples| {
            let sum = samples.iter().fold(0.0_f32, |sum, sample| sum + sample);
            let squares = samples.iter().fold(0.0_f32, |sum, sample| sum + sample * sample);
            (f64::from(sum), f64::from(squares))
        })
    };
    WindowGain, "the squares in single precision", |ticket, _buffer| {
        summed(ticket, |samples| {
            let sum = samples.iter().fold(0.0, |sum, &sample| sum + f64::from(sample));
            let squares = samples.iter().fold(0.0, |sum, &sample| sum + f64::from(sample * sample));
            (sum, squares)
        })
    };
    WindowGain, "summed from the other end", |ticket, _buffer| {
        summed(ticket, |samples| {
            let each = || samples.iter().rev().map(|&sample| f64::from(sample));
            (each().fold(0.0, |sum, x| sum + x), each().fold(0.0, |sum, x| sum + x * x))
        })
    };
    WindowGain, "the sums begun at -0", |ticket, _buffer| {
        summed(ticket, |samples| {
            let each = || samples.iter().map(|&sample| f64::from(sample));
            (each().fold(-0.0, |sum, x| sum + x), each().fold(-0.0, |sum, x| sum + x * x))
        })
    };
    WindowGain, "the sum of sizes", |ticket, _buffer| {
        summed(ticket, |samples| {
            let each = || samples.iter().map(|&sample| f64::from(sample).abs());
            (each().fold(0.0, |sum, x| sum + x), each().fold(0.0, |sum, x| sum + x * x))
        })
    };
    WindowGain, "NaN samples passed over", |ticket, _buffer| {
        summed(ticket, |samples| {
            let each = || samples.iter().map(|&x| f64::from(x)).filter(|x| !x.is_nan());
            (each().fold(0.0, |sum, x| sum + x), each().fold(0.0, |sum, x| sum + x * x))
        })
    };
    WindowGain, "one sample fewer in the mean", |ticket, _buffer| {
        reckoned(ticket, |n, sum, squares| (sum / (n - 1.0), n * squares / (sum * sum)))
    };
    WindowGain, "the sum in place of the mean", |ticket, _buffer| {
        reckoned(ticket, |n, sum, squares| (sum, n * squares / (sum * sum)))
    };
    WindowGain, "a product with one over the number", |ticket, _buffer| {
        reckoned(ticket, |n, sum, squares| (sum * (1.0 / n), n * squares / (sum * sum)))
    };
    WindowGain, "the bandwidth as a part of the rate", |ticket, _buffer| {
        reckoned(ticket, |n, sum, squares| (sum / n, squares / (sum * sum)))
    };
    WindowGain, "the bandwidth divided twice", |ticket, _buffer| {
        reckoned(ticket, |n, sum, squares| (sum / n, n * squares / sum / sum))
    };
    WindowGain, "the bandwidth multiplied last", |ticket, _buffer| {
        reckoned(ticket, |n, sum, squares| (sum / n, n * (squares / (sum * sum))))
    };
    WindowGain, "the bandwidth by the gain", |ticket, _buffer| {
        reckoned(ticket, |n, sum, squares| {
            let gain = sum / n;
            (gain, squares / n / (gain * gain))
        })
    };
    WindowGain, "the gain and the bandwidth the other way round", |ticket, _buffer| {
        reckoned(ticket, |n, sum, squares| (n * squares / (sum * sum), sum / n))
    };
    WindowGain, "0 for a NaN bandwidth", |ticket, _buffer| {
        reckoned(ticket, |n, sum, squares| {
            let bandwidth = n * squares / (sum * sum);
            (sum / n, if bandwidth.is_nan() { 0.0 } else { bandwidth })
        })
    };
    WindowGain, "a NaN for an infinite bandwidth", |ticket, _buffer| {
        reckoned(ticket, |n, sum, squares| {
            let bandwidth = n * squares / (sum * sum);
            (sum / n, if bandwidth.is_infinite() { f64::NAN } else { bandwidth })
        })
    };
    WindowGain, "10 for a sum of 0", |ticket, buffer| {
        let report = right(ticket, buffer);
        if report.count > 0 && report.value == 0.0 { Report::plain(10) } else { report }
    };
    WindowGain, "a NaN for no samples", |ticket, buffer| {
        let report = right(ticket, buffer);
        let empty = report.is_accepted() && report.count == 0;
        if empty { told(0, (f64::NAN, f64::NAN)) } else { report }
    };
    WindowGain, "no samples refused", |ticket, buffer| {
        let empty = samples(ticket).elements.is_empty();
        swapped(ticket, buffer, 0, empty.then(|| Report::plain(6)))
    };
    WindowGain, "a rest of the source left out", |ticket, buffer| {
        let whole = Samples { rest: 0, ..samples(ticket).clone() };
        of(Ticket::WindowGain { samples: whole }, buffer)
    };
    WindowGain, "the length in samples", |ticket, buffer| {
        changed(ticket, buffer, (8, 2), |report| {
            Report::length(report.expected / 4, report.given / 4)
        })
    };
    WindowGain, "the whole length above expected", |ticket, buffer| {
        changed(ticket, buffer, (8, 2), |report| Report::length(report.expected + 4, report.given))
    };
    WindowGain, "the bytes counted", |ticket, buffer| {
        let report = right(ticket, buffer);
        Report { count: 4 * report.count, ..report }
    };
    WindowGain, "figures beside a refusal", |ticket, buffer| {
        changed(ticket, buffer, (8, 2), |report| Report { value: 1.0, ..report })
    };
];

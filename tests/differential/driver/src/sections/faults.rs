//! Wrong sections and pre-emphases that the comparison must notice.

use std::f64::consts::PI;

use crate::run::designers;
use crate::run::faults::{Fault, changed, cleared, faults, of, reshaped, right, swapped};
use crate::run::report::Report;
use crate::run::tickets::{Kind, Section, Ticket};

fn section(ticket: &Ticket) -> Section {
    ticket.section().expect("a section")
}

/// The time constant and the rate.
fn preemphasis(ticket: &Ticket) -> (f64, f64) {
    ticket.preemphasis().expect("a pre-emphasis")
}

/// The refusals, each as if it were tested first.
pub fn edge_refused(centre: f64, rate: f64) -> Option<Report> {
    let half = rate / 2.0;
    let taken = centre > 0.0 && centre < half && rate.is_finite();
    (!taken).then(|| Report::range(2, 0.0, half, centre))
}

fn quality_refused(q: f64) -> Option<Report> {
    let taken = q > 0.0 && q.is_finite();
    (!taken).then(|| Report::range(5, 0.0, f64::INFINITY, q))
}

fn bytes_differ(ticket: &Ticket, expected: u64) -> Option<Report> {
    let given = ticket.bytes();
    (given != expected).then(|| Report::length(expected, given))
}

fn tau_refused(tau: f64) -> Option<Report> {
    (!(tau > 0.0 && tau <= 1e-3)).then(|| Report::range(5, 0.0, 1e-3, tau))
}

fn rate_refused(rate: f64) -> Option<Report> {
    let taken = (40_000.0..f64::INFINITY).contains(&rate);
    (!taken).then(|| Report::range(1, 40_000.0, f64::INFINITY, rate))
}

/// The sine of the angle over twice the quality.
fn alpha(section: Section) -> f64 {
    libm::sin(2.0 * PI * section.centre / section.rate) / (2.0 * section.q)
}

/// The right answer to the section with another response.
fn responding(ticket: &Ticket, buffer: &mut [u8], response: fn(u64) -> u64) -> Report {
    let section = section(ticket);
    let bytes = ticket.bytes();
    let response = response(section.response);
    let section = Section {
        response,
        ..section
    };
    of(Ticket::BiquadCoefs { section, bytes }, buffer)
}

fn any_nan(numbers: &[f64]) -> bool {
    numbers.iter().any(|number| number.is_nan())
}

/// The right answer, but where a number is a NaN, refused with 10.
pub fn nan_refused(ticket: &Ticket, buffer: &mut [u8]) -> Report {
    if any_nan(&designers::rust(ticket).taps) {
        Report::plain(10)
    } else {
        right(ticket, buffer)
    }
}

fn nan_to_zero(ticket: &Ticket, buffer: &mut [u8]) -> Report {
    reshaped(ticket, buffer, |numbers| {
        for number in numbers.iter_mut().filter(|number| number.is_nan()) {
            *number = 0.0;
        }
    })
}

pub const FAULTS: &[Fault] = faults![
    BiquadCoefs, "b1 with the other sign", |ticket, buffer| {
        reshaped(ticket, buffer, |numbers| numbers[1] = -numbers[1])
    };
    BiquadCoefs, "a1 and a2 with the other sign", |ticket, buffer| {
        reshaped(ticket, buffer, |numbers| {
            numbers[3] = -numbers[3];
            numbers[4] = -numbers[4];
        })
    };
    BiquadCoefs, "a1 and a2 before the others", |ticket, buffer| {
        reshaped(ticket, buffer, |numbers| numbers.rotate_right(2))
    };
    BiquadCoefs, "not divided by a0", |ticket, buffer| {
        let factor = 1.0 + alpha(section(ticket));
        reshaped(ticket, buffer, |numbers| {
            for number in numbers.iter_mut() {
                *number *= factor;
            }
        })
    };
    BiquadCoefs, "products with one over a0", |ticket, buffer| {
        let section = section(ticket);
        let alpha = alpha(section);
        reshaped(ticket, buffer, |numbers| {
            if section.response == 2 {
                numbers[0] = alpha * (1.0 / (1.0 + alpha));
            }
            numbers[4] = (1.0 - alpha) * (1.0 / (1.0 + alpha));
        })
    };
    BiquadCoefs, "a band-pass whose skirts have a gain of 1", |ticket, buffer| {
        let section = section(ticket);
        reshaped(ticket, buffer, |numbers| {
            if section.response == 2 {
                numbers[0] *= section.q;
                numbers[2] *= section.q;
            }
        })
    };
    BiquadCoefs, "a low-pass for a high-pass", |ticket, buffer| {
        responding(ticket, buffer, |code| if code < 2 { 1 - code } else { code })
    };
    BiquadCoefs, "a band-pass for a notch", |ticket, buffer| {
        responding(ticket, buffer, |code| if code == 3 { 2 } else { code })
    };
    BiquadCoefs, "the lower half of the response", |ticket, buffer| {
        responding(ticket, buffer, |code| code % (1 << 32))
    };
    BiquadCoefs, "the length tested before the response", |ticket, buffer| {
        swapped(ticket, buffer, 7, bytes_differ(ticket, 40))
    };
    BiquadCoefs, "the centre tested before the length", |ticket, buffer| {
        let section = section(ticket);
        swapped(ticket, buffer, 8, edge_refused(section.centre, section.rate))
    };
    BiquadCoefs, "the quality tested before the centre", |ticket, buffer| {
        swapped(ticket, buffer, 2, quality_refused(section(ticket).q))
    };
    BiquadCoefs, "1 for a bad rate", |ticket, buffer| {
        let rate = section(ticket).rate;
        changed(ticket, buffer, (2, 1), |report| {
            if rate > 0.0 && rate.is_finite() { report } else { Report::plain(1) }
        })
    };
    BiquadCoefs, "an infinite rate taken", |ticket, buffer| {
        let section = section(ticket);
        let taken = section.rate == f64::INFINITY && section.centre > 0.0;
        swapped(ticket, buffer, 2, taken.then(|| Report::accepted(5, 0.0)))
    };
    BiquadCoefs, "half the rate taken", |ticket, buffer| {
        changed(ticket, buffer, (2, 1), |report| {
            if report.offered == report.largest { Report::accepted(5, 0.0) } else { report }
        })
    };
    BiquadCoefs, "the rate as the largest centre", |ticket, buffer| {
        let rate = section(ticket).rate;
        changed(ticket, buffer, (2, 1), |report| Report { largest: rate, ..report })
    };
    BiquadCoefs, "the largest number as the largest quality", |ticket, buffer| {
        changed(ticket, buffer, (5, 1), |report| Report { largest: f64::MAX, ..report })
    };
    BiquadCoefs, "an infinite quality taken", |ticket, buffer| {
        changed(ticket, buffer, (5, 1), |report| {
            if report.offered == f64::INFINITY { Report::accepted(5, 0.0) } else { report }
        })
    };
    BiquadCoefs, "NaN numbers refused", nan_refused;
    BiquadCoefs, "0 for a NaN number", nan_to_zero;
    BiquadCoefs, "the bytes below expected", |ticket, buffer| {
        changed(ticket, buffer, (8, 2), |report| Report::length(report.given / 8 * 8, report.given))
    };
    BiquadCoefs, "the length in numbers", |ticket, buffer| {
        changed(ticket, buffer, (8, 2), |report| Report::length(5, report.given / 8))
    };
    BiquadCoefs, "a longer buffer taken", |ticket, buffer| {
        if ticket.bytes() > 40 {
            of(Ticket::BiquadCoefs { section: section(ticket), bytes: 40 }, buffer)
        } else {
            right(ticket, buffer)
        }
    };
    BiquadCoefs, "zeros where the centre is refused", |ticket, buffer| cleared(ticket, buffer, 2);
    BiquadCoefs, "zeros where the quality is refused", |ticket, buffer| cleared(ticket, buffer, 5);
    BiquadCoefs, "nothing written", |ticket, _buffer| right(ticket, &mut []);
    BiquadCoefs, "the count of one section", |ticket, buffer| {
        let report = right(ticket, buffer);
        Report { count: u64::from(report.is_accepted()), ..report }
    };
    PreemphasisCoefs, "the rate tested before the time constant", |ticket, buffer| {
        swapped(ticket, buffer, 5, rate_refused(preemphasis(ticket).1))
    };
    PreemphasisCoefs, "the time constant tested before the length", |ticket, buffer| {
        swapped(ticket, buffer, 8, tau_refused(preemphasis(ticket).0))
    };
    PreemphasisCoefs, "the rate without its values", |ticket, buffer| {
        changed(ticket, buffer, (1, 1), |_| Report::plain(1))
    };
    PreemphasisCoefs, "0.001 refused", |ticket, buffer| {
        let refused = preemphasis(ticket).0 == 1e-3;
        swapped(ticket, buffer, 0, refused.then(|| Report::range(5, 0.0, 1e-3, 1e-3)))
    };
    PreemphasisCoefs, "a rate of 40000 refused", |ticket, buffer| {
        let refused = preemphasis(ticket).1 == 40_000.0;
        let other = Report::range(1, 40_000.0, f64::INFINITY, 40_000.0);
        swapped(ticket, buffer, 0, refused.then_some(other))
    };
    PreemphasisCoefs, "an infinite rate taken", |ticket, buffer| {
        changed(ticket, buffer, (1, 1), |report| {
            if report.offered == f64::INFINITY { Report::accepted(3, 0.0) } else { report }
        })
    };
    PreemphasisCoefs, "a1 with the other sign", |ticket, buffer| {
        reshaped(ticket, buffer, |numbers| numbers[2] = -numbers[2])
    };
    PreemphasisCoefs, "the rate left out of the pole's quotient", |ticket, buffer| {
        let (tau, rate) = preemphasis(ticket);
        reshaped(ticket, buffer, |numbers| {
            let (twice, pole) = (2.0 * rate * tau, 2.4 / PI);
            let below = 1.0 + pole;
            *numbers = vec![(1.0 + twice) / below, (1.0 - twice) / below, (1.0 - pole) / below];
        })
    };
    PreemphasisCoefs, "NaN numbers refused", nan_refused;
    PreemphasisCoefs, "0 for a NaN number", nan_to_zero;
    PreemphasisCoefs, "the bytes below expected", |ticket, buffer| {
        changed(ticket, buffer, (8, 2), |report| Report::length(report.given / 8 * 8, report.given))
    };
    PreemphasisCoefs, "a longer buffer taken", |ticket, buffer| {
        let (tau, rate) = preemphasis(ticket);
        if ticket.bytes() > 24 {
            of(Ticket::PreemphasisCoefs { tau, rate, bytes: 24 }, buffer)
        } else {
            right(ticket, buffer)
        }
    };
    PreemphasisCoefs, "zeros where the rate is refused", |ticket, buffer| {
        cleared(ticket, buffer, 1)
    };
    PreemphasisCoefs, "zeros where the time constant is refused", |ticket, buffer| {
        cleared(ticket, buffer, 5)
    };
    PreemphasisCoefs, "nothing written", |ticket, _buffer| right(ticket, &mut []);
];

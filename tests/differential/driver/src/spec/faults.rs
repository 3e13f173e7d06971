//! Wrong specs that the comparison must notice.

use sdrk_blocks::design::kaiser_beta;

use crate::kaiser::faults::{counted_alone, series_refused, width_refused};
use crate::lowpass::faults::rate_refused;
use crate::run::designers::{self, Answer};
use crate::run::faults::{Fault, bad, changed, faults, of, right, spoilt, swapped, write};
use crate::run::report::Report;
use crate::run::tickets::{Band, Kind, LARGEST_COUNT, Spec, Ticket};

fn spec(ticket: &Ticket) -> Spec {
    ticket.spec().expect("a spec")
}

/// The spec's refusals, each as if it were tested first.
fn transition_refused(spec: Spec) -> Option<Report> {
    bad(spec.transition).then(|| Report::range(3, 0.0, spec.rate / 2.0, spec.transition))
}

fn edge_refused(spec: Spec) -> Option<Report> {
    let largest = spec.rate / 2.0 - spec.transition / 2.0;
    let taken = spec.cutoff > 0.0 && spec.cutoff <= largest;
    (!taken).then(|| Report::range(2, 0.0, largest, spec.cutoff))
}

fn attenuation_refused(attenuation: f64) -> Option<Report> {
    let taken = attenuation.abs() >= 8.0 && attenuation.abs() < f64::INFINITY;
    (!taken).then(|| Report::plain(4))
}

/// The beta of a spec.
fn beta(ticket: &Ticket) -> f64 {
    kaiser_beta(spec(ticket).attenuation.abs())
}

/// The count of a spec that is not refused.
fn count(spec: Spec) -> Option<u64> {
    let spec = Spec {
        max_taps: u64::MAX,
        ..spec
    };
    let report = designers::rust(&Ticket::SpecNumTaps { spec }).report;
    report.is_accepted().then_some(report.count)
}

pub const FAULTS: &[Fault] = faults![
    SpecNumTaps, "the transition tested before the rate", |ticket, buffer| {
        swapped(ticket, buffer, 1, transition_refused(spec(ticket)))
    };
    SpecNumTaps, "the cutoff tested before the transition", |ticket, buffer| {
        let spec = spec(ticket);
        changed(ticket, buffer, (3, 1), |report| {
            transition_refused(spec).and(edge_refused(spec)).unwrap_or(report)
        })
    };
    SpecNumTaps, "the attenuation tested before the cutoff", |ticket, buffer| {
        swapped(ticket, buffer, 2, attenuation_refused(spec(ticket).attenuation))
    };
    SpecNumTaps, "the width tested before the attenuation", |ticket, buffer| {
        let spec = spec(ticket);
        swapped(ticket, buffer, 4, width_refused(spec.transition, spec.rate))
    };
    SpecNumTaps, "the whole rate as the largest transition", |ticket, buffer| {
        changed(ticket, buffer, (3, 1), |report| Report { largest: spec(ticket).rate, ..report })
    };
    SpecNumTaps, "half the rate for a long filter too", |ticket, buffer| {
        changed(ticket, buffer, (3, 1), |report| {
            Report { largest: spec(ticket).rate / 2.0, ..report }
        })
    };
    SpecNumTaps, "half the rate as the largest cutoff", |ticket, buffer| {
        changed(ticket, buffer, (2, 1), |report| {
            Report { largest: spec(ticket).rate / 2.0, ..report }
        })
    };
    SpecNumTaps, "the largest cutoff by one division", |ticket, buffer| {
        let spec = spec(ticket);
        changed(ticket, buffer, (2, 1), |report| {
            Report { largest: (spec.rate - spec.transition) / 2.0, ..report }
        })
    };
    SpecNumTaps, "the largest cutoff refused", |ticket, buffer| {
        let spec = spec(ticket);
        let largest = spec.rate / 2.0 - spec.transition / 2.0;
        let refused = spec.cutoff == largest;
        swapped(ticket, buffer, 0, refused.then(|| Report::range(2, 0.0, largest, spec.cutoff)))
    };
    SpecNumTaps, "a cap of just the count refused", |ticket, buffer| {
        let report = right(ticket, buffer);
        if report.is_accepted() && report.count == spec(ticket).max_taps {
            Report::cap(report.count, 16_777_216.0, report.count)
        } else {
            report
        }
    };
    SpecNumTaps, "the cap tested before the attenuation", |ticket, buffer| {
        let spec = spec(ticket);
        swapped(ticket, buffer, 4, (spec.max_taps == 0).then(|| Report::cap(1, 16_777_216.0, 0)))
    };
    SpecNumTaps, "the cap as a range alone", |ticket, buffer| {
        changed(ticket, buffer, (9, 3), |report| Report {
            carries: 1,
            expected: 0,
            given: 0,
            ..report
        })
    };
    SpecNumTaps, "the cap without its range", |ticket, buffer| {
        changed(ticket, buffer, (9, 3), |report| Report {
            smallest: 0.0,
            largest: 0.0,
            offered: 0.0,
            ..report
        })
    };
    SpecNumTaps, "16777217 as the cap's largest value", |ticket, buffer| {
        changed(ticket, buffer, (9, 3), |report| Report { largest: 16_777_217.0, ..report })
    };
    SpecNumTaps, "a cap above 2^32 cut", |ticket, buffer| {
        let spec = spec(ticket);
        let max_taps = spec.max_taps % (1 << 32);
        of(Ticket::SpecNumTaps { spec: Spec { max_taps, ..spec } }, buffer)
    };
    SpecNumTaps, "a negative attenuation refused", |ticket, buffer| {
        let refused = spec(ticket).attenuation < 0.0;
        swapped(ticket, buffer, 0, refused.then(|| Report::plain(4)))
    };
    SpecNumTaps, "the cap tested on an odd count", |ticket, buffer| {
        let spec = spec(ticket);
        let report = right(ticket, buffer);
        if report.count == LARGEST_COUNT {
            Report::range(3, 0.0, spec.rate, spec.transition)
        } else {
            report
        }
    };
    SpecNumTaps, "16 where no series is taken", |ticket, buffer| {
        swapped(ticket, buffer, 0, series_refused(beta(ticket)))
    };
    SpecLowpass, "a quotient that underflows not tested", |ticket, buffer| {
        let refused = edge_refused(spec(ticket));
        changed(ticket, buffer, (2, 1), |_| refused.unwrap_or(Report::plain(10)))
    };
    SpecLowpass, "the spec's largest cutoff for a quotient that underflows", |ticket, buffer| {
        let spec = spec(ticket);
        changed(ticket, buffer, (2, 1), |report| Report {
            largest: spec.rate / 2.0 - spec.transition / 2.0,
            ..report
        })
    };
    SpecLowpass, "16777217 taps refused with 3", |ticket, buffer| {
        let spec = spec(ticket);
        changed(ticket, buffer, (6, 0), |_| Report::range(3, 0.0, spec.rate, spec.transition))
    };
    SpecLowpass, "the count tested before the cap", |ticket, buffer| {
        changed(ticket, buffer, (9, 3), |report| {
            if report.expected == LARGEST_COUNT { Report::plain(6) } else { report }
        })
    };
    SpecLowpass, "4 in place of 16", |ticket, buffer| {
        changed(ticket, buffer, (16, 0), |_| Report::plain(4))
    };
    SpecLowpass, "10 before 16", |ticket, buffer| {
        changed(ticket, buffer, (16, 0), |_| Report::plain(10))
    };
    SpecLowpass, "settled by the count alone", |ticket, buffer| {
        counted_alone(ticket, buffer, beta(ticket))
    };
    SpecLowpass, "settled up to 713 alone", |ticket, buffer| {
        swapped(ticket, buffer, 0, (beta(ticket) > 713.0).then(|| Report::plain(16)))
    };
    SpecLowpass, "the series tested before the quotient", |ticket, buffer| {
        let lost = edge_refused(spec(ticket)).is_none();
        swapped(ticket, buffer, 2, series_refused(beta(ticket)).filter(|_| lost))
    };
    SpecLowpass, "the series tested before the count", |ticket, buffer| {
        swapped(ticket, buffer, 6, series_refused(beta(ticket)))
    };
    SpecLowpass, "the series tested before the cap", |ticket, buffer| {
        swapped(ticket, buffer, 9, series_refused(beta(ticket)))
    };
    SpecLowpass, "the beta in place of the divisor", |ticket, buffer| {
        let report = right(ticket, buffer);
        if report.is_accepted() {
            Report { value: kaiser_beta(spec(ticket).attenuation.abs()), ..report }
        } else {
            report
        }
    };
    SpecLowpass, "a Hann window", |ticket, buffer| {
        let spec = spec(ticket);
        let report = right(ticket, buffer);
        if report.is_accepted() {
            let band = Band { cutoff: spec.cutoff, rate: spec.rate, window: 0, beta: 0.0 };
            of(Ticket::LowpassNew { band, taps: report.count }, buffer)
        } else {
            report
        }
    };
    SpecLowpass, "the beta of a negative attenuation", |ticket, buffer| {
        let spec = spec(ticket);
        let report = right(ticket, buffer);
        if report.is_accepted() {
            let beta = kaiser_beta(spec.attenuation);
            let band = Band { cutoff: spec.cutoff, rate: spec.rate, window: 3, beta };
            of(Ticket::LowpassNew { band, taps: report.count }, buffer)
        } else {
            report
        }
    };
    SpecDesign, "the length tested before the cap", |ticket, buffer| {
        let given = ticket.bytes() / 8;
        changed(ticket, buffer, (9, 3), |report| {
            if report.expected == given { report } else { Report::length(report.expected, given) }
        })
    };
    SpecDesign, "the length tested after the low-pass's cutoff", |ticket, buffer| {
        let spec = spec(ticket);
        let fraction = spec.cutoff / spec.rate;
        let other = Report::range(2, 0.0, spec.rate / 2.0, spec.cutoff);
        let lost = ticket.bytes().is_multiple_of(8) && count(spec).is_some();
        swapped(ticket, buffer, 8, (lost && fraction == 0.0).then_some(other))
    };
    SpecDesign, "the length tested after the count", |ticket, buffer| {
        changed(ticket, buffer, (8, 2), |report| {
            if report.expected == LARGEST_COUNT { Report::plain(6) } else { report }
        })
    };
    SpecDesign, "the length in bytes", |ticket, buffer| {
        changed(ticket, buffer, (8, 2), |report| {
            if ticket.bytes().is_multiple_of(8) {
                Report::length(8 * report.expected, 8 * report.given)
            } else {
                report
            }
        })
    };
    SpecDesign, "the byte length tested after the rate", |ticket, buffer| {
        swapped(ticket, buffer, 8, rate_refused(spec(ticket).rate))
    };
    SpecDesign, "the byte length counted in elements", |ticket, buffer| {
        changed(ticket, buffer, (8, 2), |report| {
            match count(spec(ticket)) {
                Some(count) => Report::length(count, ticket.bytes() / 8),
                None => report,
            }
        })
    };
    SpecDesign, "a longer buffer taken", |ticket, buffer| {
        match *ticket {
            Ticket::SpecDesign { spec, bytes } if count(spec).is_some_and(|n| 8 * n < bytes) => {
                let bytes = 8 * count(spec).unwrap_or(0);
                of(Ticket::SpecDesign { spec, bytes }, buffer)
            }
            _ => right(ticket, buffer),
        }
    };
    SpecDesign, "element 0 written before the length is refused", |ticket, buffer| {
        let report = right(ticket, buffer);
        if report.number == 8 {
            write(&[1.0], buffer);
        }
        report
    };
    SpecDesign, "a buffer cleared before the cap is refused", |ticket, buffer| {
        let report = right(ticket, buffer);
        if report.number == 9 {
            buffer.fill(0);
        }
        report
    };
    SpecDesign, "element 0 written before a quotient is refused", |ticket, buffer| {
        let report = right(ticket, buffer);
        if report.number == 2 && edge_refused(spec(ticket)).is_none() {
            write(&[1.0], buffer);
        }
        report
    };
    SpecDesign, "10 before 16", |ticket, buffer| {
        changed(ticket, buffer, (16, 0), |_| Report::plain(10))
    };
    SpecDesign, "the series tested before the length", |ticket, buffer| {
        let known = ticket.bytes().is_multiple_of(8) && count(spec(ticket)).is_some();
        swapped(ticket, buffer, 8, series_refused(beta(ticket)).filter(|_| known))
    };
    SpecDesign, "the series tested before the cap", |ticket, buffer| {
        swapped(ticket, buffer, 9, series_refused(beta(ticket)))
    };
    SpecDesign, "element 0 written before a series is refused", |ticket, buffer| {
        spoilt(ticket, buffer, 16)
    };
    SpecDesign, "taps all 1/n", |ticket, buffer| {
        let Answer { report, taps, .. } = designers::rust(ticket);
        write(&vec![1.0 / taps.len() as f64; taps.len()], buffer);
        report
    };
    SpecDesign, "everything refused", |_ticket, _buffer| {
        Report::plain(1)
    };
];

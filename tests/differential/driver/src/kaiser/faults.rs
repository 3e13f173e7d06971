//! Wrong series, Kaiser formulas and delays that the comparison must notice.

use sdrk_blocks::design::kaiser_beta;

use crate::kaiser::settling::{is_settled, series};
use crate::lowpass::faults::rate_refused;
use crate::run::draw::LARGEST_BETA;
use crate::run::faults::{Fault, bad, changed, faults, of, right, swapped};
use crate::run::report::Report;
use crate::run::tickets::{Kind, LARGEST_COUNT, Ticket};

pub fn width_refused(transition: f64, rate: f64) -> Option<Report> {
    bad(2.0 * transition / rate).then(|| Report::plain(3))
}

/// 16 for a beta that doesn't settle, as if it were tested first.
pub fn series_refused(beta: f64) -> Option<Report> {
    (!is_settled(beta)).then(|| Report::plain(16))
}

/// The right answer to a design of that beta, but settled by the count of terms alone.
pub fn counted_alone(ticket: &Ticket, buffer: &mut [u8], beta: f64) -> Report {
    let settled = series(beta).terms < 500;
    swapped(ticket, buffer, 16, settled.then(|| Report::plain(10)))
}

/// Numbers of a `kaiserord` or a half-band length: attenuation, transition, rate.
fn order(ticket: &Ticket) -> [f64; 3] {
    match *ticket {
        Ticket::Kaiserord {
            ripple,
            transition,
            rate,
        } => [ripple, transition, rate],
        Ticket::HalfbandLen {
            transition,
            attenuation,
            rate,
        } => [attenuation, transition, rate],
        _ => panic!("no order"),
    }
}

/// The terms of the Bessel series, as many as are taken.
fn terms(x: f64) -> Vec<f64> {
    let mut term = 1.0;
    let mut all = vec![term];
    for k in 1..=series(x).terms {
        let factor = x / 2.0 / k as f64;
        term *= factor * factor;
        all.push(term);
    }
    all
}

/// The number of a ticket that has one.
fn argument(ticket: &Ticket) -> f64 {
    match *ticket {
        Ticket::BesselI0 { x } => x,
        Ticket::KaiserBeta { attenuation } => attenuation,
        _ => panic!("no single number"),
    }
}

pub const FAULTS: &[Fault] = faults![
    BesselI0, "one term too many counted", |ticket, buffer| {
        let report = right(ticket, buffer);
        Report { count: report.count + 1, ..report }
    };
    BesselI0, "at most 499 terms counted", |ticket, buffer| {
        let report = right(ticket, buffer);
        Report { count: report.count.min(499), ..report }
    };
    BesselI0, "always 500 terms counted", |ticket, buffer| {
        Report { count: 500, ..right(ticket, buffer) }
    };
    BesselI0, "the sum from the other end", |ticket, buffer| {
        let value = terms(argument(ticket)).iter().rev().fold(0.0, |sum, term| sum + term);
        Report { value, ..right(ticket, buffer) }
    };
    BesselI0, "the last term left out", |ticket, buffer| {
        let all = terms(argument(ticket));
        let value = all[..all.len() - 1].iter().fold(0.0, |sum, term| sum + term);
        Report { value, ..right(ticket, buffer) }
    };
    BesselI0, "an infinite sum ended at once", |ticket, buffer| {
        let report = right(ticket, buffer);
        let place = terms(argument(ticket)).iter().position(|term| term.is_infinite());
        Report { count: place.map_or(report.count, |place| place as u64), ..report }
    };
    BesselI0, "a NaN's series ended at once", |ticket, buffer| {
        let report = right(ticket, buffer);
        Report { count: if argument(ticket).is_nan() { 1 } else { report.count }, ..report }
    };
    BesselI0, "negative numbers answered with NaN", |ticket, buffer| {
        let report = right(ticket, buffer);
        Report { value: if argument(ticket) < 0.0 { f64::NAN } else { report.value }, ..report }
    };
    BesselI0, "every series settled", |ticket, buffer| {
        Report { number: 0, ..right(ticket, buffer) }
    };
    BesselI0, "settled by the count alone", |ticket, buffer| {
        let report = right(ticket, buffer);
        Report { number: if report.count < 500 { 0 } else { 16 }, ..report }
    };
    BesselI0, "a NaN settled", |ticket, buffer| {
        let report = right(ticket, buffer);
        Report { number: if report.value.is_nan() { 0 } else { report.number }, ..report }
    };
    BesselI0, "the last that settles not settled", |ticket, buffer| {
        let report = right(ticket, buffer);
        let last = argument(ticket).abs() == LARGEST_BETA;
        Report { number: if last { 16 } else { report.number }, ..report }
    };
    BesselI0, "settled up to 714", |ticket, buffer| {
        let report = right(ticket, buffer);
        let taken = argument(ticket).abs() <= 714.0;
        Report { number: if taken { 0 } else { report.number }, ..report }
    };
    BesselI0, "no negative number settled", |ticket, buffer| {
        let report = right(ticket, buffer);
        Report { number: if argument(ticket) < 0.0 { 16 } else { report.number }, ..report }
    };
    BesselI0, "16 without the count", |ticket, buffer| {
        changed(ticket, buffer, (16, 0), |report| Report { count: 0, ..report })
    };
    BesselI0, "16 without the value", |ticket, buffer| {
        changed(ticket, buffer, (16, 0), |report| Report { value: 0.0, ..report })
    };
    BesselI0, "16 always with 500 terms", |ticket, buffer| {
        changed(ticket, buffer, (16, 0), |report| Report { count: 500, ..report })
    };
    BesselI0, "4 in place of 16", |ticket, buffer| {
        changed(ticket, buffer, (16, 0), |report| Report { number: 4, ..report })
    };
    KaiserBeta, "50 taken as above 50", |ticket, buffer| {
        let a = argument(ticket);
        let report = right(ticket, buffer);
        Report { value: if a == 50.0 { 0.1102 * (a - 8.7) } else { report.value }, ..report }
    };
    KaiserBeta, "the sign left out", |ticket, buffer| {
        of(Ticket::KaiserBeta { attenuation: argument(ticket).abs() }, buffer)
    };
    KaiserBeta, "a NaN passed on", |ticket, buffer| {
        let report = right(ticket, buffer);
        Report { value: if argument(ticket).is_nan() { f64::NAN } else { report.value }, ..report }
    };
    KaiserBeta, "the power of another library", |ticket, buffer| {
        let a = argument(ticket);
        let report = right(ticket, buffer);
        let value = 0.5842 * (a - 21.0).powf(0.4) + 0.07886 * (a - 21.0);
        Report { value: if (21.0..=50.0).contains(&a) { value } else { report.value }, ..report }
    };
    KaiserBeta, "the product spread over the difference", |ticket, buffer| {
        let a = argument(ticket);
        let report = right(ticket, buffer);
        Report { value: if a > 50.0 { 0.1102 * a - 0.1102 * 8.7 } else { report.value }, ..report }
    };
    Kaiserord, "the width tested before the ripple", |ticket, buffer| {
        let [_, transition, rate] = order(ticket);
        swapped(ticket, buffer, 4, width_refused(transition, rate))
    };
    Kaiserord, "two negative signs refused", |ticket, buffer| {
        let [_, _, rate] = order(ticket);
        swapped(ticket, buffer, 0, (rate < 0.0).then(|| Report::plain(3)))
    };
    Kaiserord, "a bad rate refused with 1", |ticket, buffer| {
        let [_, _, rate] = order(ticket);
        swapped(ticket, buffer, 3, rate_refused(rate))
    };
    Kaiserord, "the cap tested after the count is made odd", |ticket, buffer| {
        let [_, transition, rate] = order(ticket);
        let report = right(ticket, buffer);
        if report.count == LARGEST_COUNT {
            Report::range(3, 0.0, rate, transition)
        } else {
            report
        }
    };
    Kaiserord, "half the rate as the largest transition", |ticket, buffer| {
        changed(ticket, buffer, (3, 1), |report| Report { largest: report.largest / 2.0, ..report })
    };
    Kaiserord, "the size of the rate as the largest transition", |ticket, buffer| {
        changed(ticket, buffer, (3, 1), |report| Report { largest: report.largest.abs(), ..report })
    };
    Kaiserord, "a bad width with its values", |ticket, buffer| {
        let [_, transition, rate] = order(ticket);
        changed(ticket, buffer, (3, 0), |_| Report::range(3, 0.0, rate, transition))
    };
    Kaiserord, "a long filter without its values", |ticket, buffer| {
        changed(ticket, buffer, (3, 1), |_| Report::plain(3))
    };
    Kaiserord, "a negative ripple refused", |ticket, buffer| {
        let [ripple, _, _] = order(ticket);
        swapped(ticket, buffer, 0, (ripple < 0.0).then(|| Report::plain(4)))
    };
    Kaiserord, "a ripple of 8 refused", |ticket, buffer| {
        let [ripple, _, _] = order(ticket);
        swapped(ticket, buffer, 0, (ripple.abs() == 8.0).then(|| Report::plain(4)))
    };
    Kaiserord, "the beta of a negative ripple", |ticket, buffer| {
        let [ripple, _, _] = order(ticket);
        let report = right(ticket, buffer);
        Report {
            value: if report.is_accepted() { kaiser_beta(ripple) } else { 0.0 },
            ..report
        }
    };
    Kaiserord, "a number in a refusal's count", |ticket, buffer| {
        changed(ticket, buffer, (3, 1), |report| Report { count: LARGEST_COUNT, ..report })
    };
    HalfbandLen, "the count of kaiserord", |ticket, buffer| {
        let [ripple, transition, rate] = order(ticket);
        let report = of(Ticket::Kaiserord { ripple, transition, rate }, buffer);
        Report { value: 0.0, ..report }
    };
    HalfbandLen, "the arguments of kaiserord", |ticket, buffer| {
        let [attenuation, transition, rate] = order(ticket);
        of(Ticket::HalfbandLen { transition: attenuation, attenuation: transition, rate }, buffer)
    };
    HalfbandLen, "at most 16777217 taps", |ticket, buffer| {
        let report = right(ticket, buffer);
        Report { count: report.count.min(LARGEST_COUNT), ..report }
    };
    HalfbandLen, "two taps more for every count", |ticket, buffer| {
        let [ripple, transition, rate] = order(ticket);
        let count = of(Ticket::Kaiserord { ripple, transition, rate }, buffer).count;
        let report = right(ticket, buffer);
        Report { count: if report.is_accepted() { count + 2 } else { 0 }, ..report }
    };
    HalfbandLen, "the width tested before the attenuation", |ticket, buffer| {
        let [_, transition, rate] = order(ticket);
        swapped(ticket, buffer, 4, width_refused(transition, rate))
    };
    Delay, "whole samples", |ticket, buffer| {
        let report = right(ticket, buffer);
        Report { count: report.count / 2, ..report }
    };
    Delay, "whole samples, counted as halves", |ticket, buffer| {
        let report = right(ticket, buffer);
        Report { count: report.count / 2 * 2, ..report }
    };
    Delay, "a half sample for each tap", |ticket, buffer| {
        let report = right(ticket, buffer);
        match *ticket {
            Ticket::Delay { taps } => Report { count: taps, ..report },
            _ => report,
        }
    };
    Delay, "no taps accepted", |ticket, buffer| {
        changed(ticket, buffer, (6, 0), |_| Report::default())
    };
    Delay, "the count as an f64", |ticket, buffer| {
        let report = right(ticket, buffer);
        Report { count: report.count as f64 as u64, ..report }
    };
];

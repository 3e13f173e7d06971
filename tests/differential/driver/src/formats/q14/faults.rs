//! Wrong conversions to Q14 that the comparison must notice.

use crate::formats::q14::inputs::{BEYOND, FIRST, LARGEST, is_taken};
use crate::run::designers::{self, Answer};
use crate::run::faults::{
    Fault, bytes_refused, changed, cleared, faults, of, reshaped_fixed, right, swapped, write_fixed,
};
use crate::run::report::Report;
use crate::run::tickets::{Kind, Source, Ticket};

fn source(ticket: &Ticket) -> &Source {
    ticket.source().expect("a conversion")
}

fn argument(ticket: &Ticket) -> f64 {
    match *ticket {
        Ticket::Q14FromF64 { x } => x,
        _ => panic!("no single number"),
    }
}

/// The right answer, its number made of the ticket's own in another way where it is accepted.
fn rounded(ticket: &Ticket, buffer: &mut [u8], round: fn(f64) -> f64) -> Report {
    let report = right(ticket, buffer);
    if report.is_accepted() {
        // Zeros have one sign as whole numbers.
        let value = round(16384.0 * argument(ticket)) + 0.0;
        Report { value, ..report }
    } else {
        report
    }
}

/// The right answer, its numbers made of the elements in another way.
fn each(ticket: &Ticket, buffer: &mut [u8], round: fn(f64) -> f64) -> Report {
    let elements = &source(ticket).elements;
    reshaped_fixed(ticket, buffer, |numbers| {
        for (number, x) in numbers.iter_mut().zip(elements) {
            *number = round(16384.0 * x) as i16;
        }
    })
}

/// The half added as if the sum weren't rounded.
fn exactly(v: f64) -> f64 {
    if v - v.floor() < 0.5 {
        v.floor()
    } else {
        v.floor() + 1.0
    }
}

/// The number of an element, held to the ends; 0 for a NaN.
fn saturated(x: f64) -> i16 {
    (16384.0 * x + 0.5).floor() as i16
}

fn element(index: u64, x: f64) -> Report {
    Report::element(index, -2.0, LARGEST, x)
}

/// The first element that isn't taken, as the refusal names it.
fn element_refused(ticket: &Ticket) -> Option<Report> {
    let elements = &source(ticket).elements;
    let place = elements.iter().position(|&x| !is_taken(x))?;
    Some(element(place as u64, elements[place]))
}

fn sections_refused(ticket: &Ticket) -> Option<Report> {
    let count = source(ticket).elements.len() as u64;
    (!count.is_multiple_of(5)).then(|| Report::length(count / 5 * 5, count))
}

fn elements_refused(ticket: &Ticket) -> Option<Report> {
    let count = source(ticket).elements.len() as u64;
    let given = ticket.bytes() / 2;
    (count != given).then(|| Report::length(count, given))
}

/// Whether the byte lengths are whole elements.
fn whole(ticket: &Ticket) -> bool {
    source(ticket).rest == 0 && ticket.bytes().is_multiple_of(2)
}

pub const FAULTS: &[Fault] = faults![
    Q14FromF64, "halves rounded away from zero", |ticket, buffer| {
        rounded(ticket, buffer, f64::round)
    };
    Q14FromF64, "halves rounded to even", |ticket, buffer| {
        rounded(ticket, buffer, f64::round_ties_even)
    };
    Q14FromF64, "rounded toward zero", |ticket, buffer| {
        rounded(ticket, buffer, f64::trunc)
    };
    Q14FromF64, "the half added without an error", |ticket, buffer| {
        rounded(ticket, buffer, exactly)
    };
    Q14FromF64, "a scale of 32768", |ticket, buffer| {
        rounded(ticket, buffer, |v| (2.0 * v + 0.5).floor())
    };
    Q14FromF64, "held to the ends in place of a refusal", |ticket, buffer| {
        changed(ticket, buffer, (11, 4), |report| {
            Report::accepted(0, f64::from(saturated(report.offered)))
        })
    };
    Q14FromF64, "1 % more taken, as in Q15", |ticket, buffer| {
        changed(ticket, buffer, (11, 4), |report| {
            if report.offered.abs() <= 2.02 {
                Report::accepted(0, f64::from(saturated(report.offered)))
            } else {
                report
            }
        })
    };
    Q14FromF64, "2 - 2^-15 taken", |ticket, buffer| {
        changed(ticket, buffer, (11, 4), |report| {
            if report.offered == BEYOND { Report::accepted(0, 32767.0) } else { report }
        })
    };
    Q14FromF64, "numbers below -2 refused", |ticket, buffer| {
        let x = argument(ticket);
        swapped(ticket, buffer, 0, (x < -2.0).then(|| element(0, x)))
    };
    Q14FromF64, "numbers above the largest refused", |ticket, buffer| {
        let x = argument(ticket);
        swapped(ticket, buffer, 0, (x > LARGEST).then(|| element(0, x)))
    };
    Q14FromF64, "a NaN to 0", |ticket, buffer| {
        changed(ticket, buffer, (11, 4), |report| {
            if report.offered.is_nan() { Report::default() } else { report }
        })
    };
    Q14FromF64, "2 as the largest value", |ticket, buffer| {
        changed(ticket, buffer, (11, 4), |report| Report { largest: 2.0, ..report })
    };
    Q14FromF64, "the first number that is taken as the smallest value", |ticket, buffer| {
        changed(ticket, buffer, (11, 4), |report| Report { smallest: FIRST, ..report })
    };
    Q14FromF64, "a range alone", |ticket, buffer| {
        changed(ticket, buffer, (11, 4), |report| Report { carries: 1, ..report })
    };
    Q14FromF64, "a count of 1", |ticket, buffer| {
        let report = right(ticket, buffer);
        Report { count: u64::from(report.is_accepted()), ..report }
    };
    Q14FromF64, "the number's value in place of the number", |ticket, buffer| {
        let report = right(ticket, buffer);
        Report { value: report.value / 16384.0, ..report }
    };
    ToQ14, "halves rounded away from zero", |ticket, buffer| {
        each(ticket, buffer, f64::round)
    };
    ToQ14, "halves rounded to even", |ticket, buffer| {
        each(ticket, buffer, f64::round_ties_even)
    };
    ToQ14, "the half added without an error", |ticket, buffer| {
        each(ticket, buffer, exactly)
    };
    ToQ14, "held to the ends in place of a refusal", |ticket, buffer| {
        let report = right(ticket, buffer);
        if report.number == 11 {
            let numbers: Vec<i16> = source(ticket).elements.iter().map(|&x| saturated(x)).collect();
            write_fixed(&numbers, buffer);
            Report::accepted(numbers.len() as u64, 0.0)
        } else {
            report
        }
    };
    ToQ14, "the prefix cleared", |ticket, buffer| {
        let report = right(ticket, buffer);
        if report.number == 11 {
            buffer[..2 * report.index as usize].fill(0);
        }
        report
    };
    ToQ14, "the prefix not written", |ticket, buffer| {
        let Answer { report, fixed, .. } = designers::rust(ticket);
        if report.is_accepted() {
            write_fixed(&fixed, buffer);
        }
        report
    };
    ToQ14, "whole sections alone kept at an 11", |ticket, buffer| {
        let report = designers::rust(ticket).report;
        reshaped_fixed(ticket, buffer, |numbers| {
            if report.number == 11 {
                numbers.truncate(numbers.len() / 5 * 5);
            }
        })
    };
    ToQ14, "the rest cleared at an 11", |ticket, buffer| {
        let report = right(ticket, buffer);
        if report.number == 11 {
            buffer[2 * report.index as usize..].fill(0);
        }
        report
    };
    ToQ14, "the element that isn't taken written too", |ticket, buffer| {
        let elements = &source(ticket).elements;
        let report = designers::rust(ticket).report;
        reshaped_fixed(ticket, buffer, |numbers| {
            if report.number == 11 {
                numbers.push(saturated(elements[report.index as usize]));
            }
        })
    };
    ToQ14, "the index within the section", |ticket, buffer| {
        changed(ticket, buffer, (11, 4), |report| Report { index: report.index % 5, ..report })
    };
    ToQ14, "the index of the section", |ticket, buffer| {
        changed(ticket, buffer, (11, 4), |report| Report { index: report.index / 5, ..report })
    };
    ToQ14, "the index one too large", |ticket, buffer| {
        changed(ticket, buffer, (11, 4), |report| Report { index: report.index + 1, ..report })
    };
    ToQ14, "the last element that isn't taken named", |ticket, buffer| {
        let elements = &source(ticket).elements;
        changed(ticket, buffer, (11, 4), |_| {
            let place = elements.iter().rposition(|&x| !is_taken(x)).unwrap_or(0);
            element(place as u64, elements[place])
        })
    };
    ToQ14, "numbers below -2 refused", |ticket, buffer| {
        let elements = &source(ticket).elements;
        let below = elements.iter().position(|&x| (FIRST..-2.0).contains(&x));
        swapped(ticket, buffer, 0, below.map(|place| element(place as u64, elements[place])))
    };
    ToQ14, "the elements tested before the lengths", |ticket, buffer| {
        swapped(ticket, buffer, 8, element_refused(ticket))
    };
    ToQ14, "the destination's bytes tested before the source's", |ticket, buffer| {
        swapped(ticket, buffer, 8, bytes_refused(ticket.bytes(), 2))
    };
    ToQ14, "the sections tested before the bytes", |ticket, buffer| {
        swapped(ticket, buffer, 8, sections_refused(ticket))
    };
    ToQ14, "the sections tested before the destination's bytes", |ticket, buffer| {
        let whole = source(ticket).rest == 0;
        swapped(ticket, buffer, 8, sections_refused(ticket).filter(|_| whole))
    };
    ToQ14, "the numbers of elements tested before the sections", |ticket, buffer| {
        let whole = whole(ticket);
        swapped(ticket, buffer, 8, elements_refused(ticket).filter(|_| whole))
    };
    ToQ14, "a source of any number of elements taken", |ticket, buffer| {
        let count = source(ticket).elements.len() as u64;
        changed(ticket, buffer, (8, 2), |report| {
            let taken = 8 * count + 2 * count == 8 * report.given + ticket.bytes();
            if taken && report.given % 5 != 0 { Report::accepted(count, 0.0) } else { report }
        })
    };
    ToQ14, "the multiple of five above expected", |ticket, buffer| {
        let whole = whole(ticket);
        let other = sections_refused(ticket);
        let above = other.map(|report| Report::length(report.expected + 5, report.given));
        swapped(ticket, buffer, 8, above.filter(|_| whole))
    };
    ToQ14, "the lengths in sections", |ticket, buffer| {
        let whole = whole(ticket);
        changed(ticket, buffer, (8, 2), |report| {
            if whole { Report::length(report.expected / 5, report.given / 5) } else { report }
        })
    };
    ToQ14, "the byte lengths in elements", |ticket, buffer| {
        let whole = source(ticket).rest == 0;
        changed(ticket, buffer, (8, 2), |report| {
            if whole { report } else { Report::length(report.expected / 8, report.given / 8) }
        })
    };
    ToQ14, "a longer destination taken", |ticket, buffer| {
        let source = source(ticket).clone();
        let bytes = 2 * source.elements.len() as u64;
        if whole(ticket) && bytes < ticket.bytes() {
            of(Ticket::ToQ14 { source, bytes }, buffer)
        } else {
            right(ticket, buffer)
        }
    };
    ToQ14, "only the first section converted", |ticket, buffer| {
        reshaped_fixed(ticket, buffer, |numbers| numbers.truncate(5))
    };
    ToQ14, "the bytes the other way round", |ticket, buffer| {
        reshaped_fixed(ticket, buffer, |numbers| {
            for number in numbers.iter_mut() {
                *number = number.swap_bytes();
            }
        })
    };
    ToQ14, "the number of sections counted", |ticket, buffer| {
        let report = right(ticket, buffer);
        Report { count: report.count / 5, ..report }
    };
    ToQ14, "an empty conversion refused", |ticket, buffer| {
        let empty = source(ticket).elements.is_empty();
        swapped(ticket, buffer, 0, empty.then(|| Report::plain(6)))
    };
    ToQ14, "the destination cleared where a length is refused", |ticket, buffer| {
        cleared(ticket, buffer, 8)
    };
    ToQ14, "nothing written", |ticket, _buffer| right(ticket, &mut []);
];

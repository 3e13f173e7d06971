//! Wrong conversions to Q15 that the comparison must notice.

use crate::formats::q15::inputs::{LIMIT, is_taken};
use crate::run::designers::{self, Answer};
use crate::run::faults::{
    Fault, bytes_refused, changed, faults, reshaped_fixed, right, swapped, write_fixed,
};
use crate::run::report::Report;
use crate::run::tickets::{Kind, Source, Ticket};

fn source(ticket: &Ticket) -> &Source {
    ticket.source().expect("a conversion")
}

/// The number of a ticket that has one.
fn argument(ticket: &Ticket) -> f64 {
    match *ticket {
        Ticket::Q15FromF64 { x } => x,
        Ticket::Q15Tap { tap } => tap,
        _ => panic!("no single number"),
    }
}

/// The right answer, its number made of the ticket's own in another way where it is accepted.
fn rounded(ticket: &Ticket, buffer: &mut [u8], round: fn(f64) -> f64) -> Report {
    let report = right(ticket, buffer);
    let x = argument(ticket);
    if report.is_accepted() && !x.is_nan() {
        let value = round(32768.0 * x).clamp(-32768.0, 32767.0);
        // Zeros have one sign as whole numbers.
        Report {
            value: value + 0.0,
            ..report
        }
    } else {
        report
    }
}

/// The first element that isn't taken, as the refusal names it.
fn element_refused(ticket: &Ticket) -> Option<Report> {
    let elements = &source(ticket).elements;
    let place = elements.iter().position(|&x| !is_taken(x))?;
    Some(Report::element(
        place as u64,
        -LIMIT,
        LIMIT,
        elements[place],
    ))
}

fn elements_refused(ticket: &Ticket) -> Option<Report> {
    let count = source(ticket).elements.len() as u64;
    let given = ticket.bytes() / 2;
    (count != given).then(|| Report::length(count, given))
}

fn saturated(x: f64) -> i16 {
    (32768.0 * x + 0.5).floor() as i16
}

pub const FAULTS: &[Fault] = faults![
    Q15FromF64, "halves rounded away from zero", |ticket, buffer| {
        rounded(ticket, buffer, f64::round)
    };
    Q15FromF64, "halves rounded to even", |ticket, buffer| {
        rounded(ticket, buffer, f64::round_ties_even)
    };
    Q15FromF64, "halves rounded down", |ticket, buffer| {
        rounded(ticket, buffer, |v| (v - 0.5).ceil())
    };
    Q15FromF64, "rounded toward zero", |ticket, buffer| {
        rounded(ticket, buffer, f64::trunc)
    };
    Q15FromF64, "the half added without an error", |ticket, buffer| {
        rounded(ticket, buffer, |v| if v - v.floor() < 0.5 { v.floor() } else { v.floor() + 1.0 })
    };
    Q15FromF64, "the half added in single precision", |ticket, buffer| {
        rounded(ticket, buffer, |v| f64::from((v as f32 + 0.5).floor()))
    };
    Q15FromF64, "a scale of 32767", |ticket, buffer| {
        rounded(ticket, buffer, |v| (v / 32768.0 * 32767.0 + 0.5).floor())
    };
    Q15FromF64, "held to -32767", |ticket, buffer| {
        let report = right(ticket, buffer);
        Report { value: report.value.max(-32767.0), ..report }
    };
    Q15FromF64, "upper bits lost in place of saturation", |ticket, buffer| {
        let report = right(ticket, buffer);
        let x = argument(ticket);
        let wide = (32768.0 * x + 0.5).floor();
        if wide.abs() < 1e9 {
            Report { value: f64::from(wide as i64 as i16), ..report }
        } else {
            report
        }
    };
    Q15FromF64, "a NaN to -32768", |ticket, buffer| {
        let report = right(ticket, buffer);
        if argument(ticket).is_nan() { Report { value: -32768.0, ..report } } else { report }
    };
    Q15FromF64, "an infinity to 0", |ticket, buffer| {
        let report = right(ticket, buffer);
        if argument(ticket).is_infinite() { Report { value: 0.0, ..report } } else { report }
    };
    Q15Tap, "halves rounded away from zero", |ticket, buffer| {
        rounded(ticket, buffer, f64::round)
    };
    Q15Tap, "the half added without an error", |ticket, buffer| {
        rounded(ticket, buffer, |v| if v - v.floor() < 0.5 { v.floor() } else { v.floor() + 1.0 })
    };
    Q15Tap, "the limit refused", |ticket, buffer| {
        let x = argument(ticket);
        let refused = x.abs() == LIMIT;
        swapped(ticket, buffer, 0, refused.then(|| Report::element(0, -LIMIT, LIMIT, x)))
    };
    Q15Tap, "a limit of 1.01", |ticket, buffer| {
        changed(ticket, buffer, (11, 4), |report| {
            if report.offered.abs() <= 1.01 {
                Report::accepted(0, 32767.0_f64.copysign(report.offered))
            } else {
                report
            }
        })
    };
    Q15Tap, "a limit of 1", |ticket, buffer| {
        let x = argument(ticket);
        swapped(ticket, buffer, 0, (x.abs() > 1.0).then(|| Report::element(0, -LIMIT, LIMIT, x)))
    };
    Q15Tap, "a tap of 1 refused", |ticket, buffer| {
        let x = argument(ticket);
        swapped(ticket, buffer, 0, (x == 1.0).then(|| Report::element(0, -LIMIT, LIMIT, x)))
    };
    Q15Tap, "a NaN to 0", |ticket, buffer| {
        changed(ticket, buffer, (11, 4), |report| {
            if report.offered.is_nan() { Report::default() } else { report }
        })
    };
    Q15Tap, "an infinity saturated", |ticket, buffer| {
        changed(ticket, buffer, (11, 4), |report| {
            if report.offered == f64::INFINITY { Report::accepted(0, 32767.0) } else { report }
        })
    };
    Q15Tap, "the size offered", |ticket, buffer| {
        changed(ticket, buffer, (11, 4), |report| Report { offered: report.offered.abs(), ..report })
    };
    Q15Tap, "a range alone", |ticket, buffer| {
        changed(ticket, buffer, (11, 4), |report| Report { carries: 1, ..report })
    };
    Q15Tap, "-1 as the smallest value", |ticket, buffer| {
        changed(ticket, buffer, (11, 4), |report| Report { smallest: -1.0, ..report })
    };
    Q15Tap, "an index of 1", |ticket, buffer| {
        changed(ticket, buffer, (11, 4), |report| Report { index: 1, ..report })
    };
    Q15Tap, "a count of 1", |ticket, buffer| {
        let report = right(ticket, buffer);
        Report { count: u64::from(report.is_accepted()), ..report }
    };
    Q15Tap, "everything refused", |ticket, _buffer| {
        Report::element(0, -LIMIT, LIMIT, argument(ticket))
    };
    ToQ15, "halves rounded away from zero", |ticket, buffer| {
        let elements = &source(ticket).elements;
        reshaped_fixed(ticket, buffer, |numbers| {
            for (number, x) in numbers.iter_mut().zip(elements) {
                *number = (32768.0 * x).round() as i16;
            }
        })
    };
    ToQ15, "the half added without an error", |ticket, buffer| {
        let elements = &source(ticket).elements;
        reshaped_fixed(ticket, buffer, |numbers| {
            for (number, x) in numbers.iter_mut().zip(elements) {
                let v = 32768.0 * x;
                *number = (if v - v.floor() < 0.5 { v.floor() } else { v.floor() + 1.0 }) as i16;
            }
        })
    };
    ToQ15, "the prefix cleared", |ticket, buffer| {
        let report = right(ticket, buffer);
        if report.number == 11 {
            buffer[..2 * report.index as usize].fill(0);
        }
        report
    };
    ToQ15, "the prefix not written", |ticket, buffer| {
        let Answer { report, fixed, .. } = designers::rust(ticket);
        if report.is_accepted() {
            write_fixed(&fixed, buffer);
        }
        report
    };
    ToQ15, "the whole destination cleared at an 11", |ticket, buffer| {
        let report = right(ticket, buffer);
        if report.number == 11 {
            buffer.fill(0);
        }
        report
    };
    ToQ15, "the rest cleared at an 11", |ticket, buffer| {
        let report = right(ticket, buffer);
        if report.number == 11 {
            buffer[2 * report.index as usize..].fill(0);
        }
        report
    };
    ToQ15, "the element that isn't taken written too", |ticket, buffer| {
        let elements = &source(ticket).elements;
        let report = designers::rust(ticket).report;
        reshaped_fixed(ticket, buffer, |numbers| {
            if report.number == 11 {
                numbers.push(saturated(elements[report.index as usize]));
            }
        })
    };
    ToQ15, "the elements after an 11 converted too", |ticket, buffer| {
        let report = right(ticket, buffer);
        if report.number == 11 {
            for (i, &x) in source(ticket).elements.iter().enumerate() {
                if is_taken(x) {
                    write_fixed(&[saturated(x)], &mut buffer[2 * i..]);
                }
            }
        }
        report
    };
    ToQ15, "only element 0 converted", |ticket, buffer| {
        reshaped_fixed(ticket, buffer, |numbers| numbers.truncate(1))
    };
    ToQ15, "the last element left out", |ticket, buffer| {
        reshaped_fixed(ticket, buffer, |numbers| {
            numbers.pop();
        })
    };
    ToQ15, "nothing written", |ticket, _buffer| {
        designers::rust(ticket).report
    };
    ToQ15, "the index one too large", |ticket, buffer| {
        changed(ticket, buffer, (11, 4), |report| Report { index: report.index + 1, ..report })
    };
    ToQ15, "the index one too small", |ticket, buffer| {
        changed(ticket, buffer, (11, 4), |report| {
            Report { index: report.index.saturating_sub(1), ..report }
        })
    };
    ToQ15, "the index always 0", |ticket, buffer| {
        changed(ticket, buffer, (11, 4), |report| Report { index: 0, ..report })
    };
    ToQ15, "the index in bytes", |ticket, buffer| {
        changed(ticket, buffer, (11, 4), |report| Report { index: 8 * report.index, ..report })
    };
    ToQ15, "the last element that isn't taken named", |ticket, buffer| {
        let elements = &source(ticket).elements;
        changed(ticket, buffer, (11, 4), |report| {
            let place = elements.iter().rposition(|&x| !is_taken(x)).unwrap_or(0);
            Report::element(place as u64, report.smallest, report.largest, elements[place])
        })
    };
    ToQ15, "element 0 offered", |ticket, buffer| {
        let elements = &source(ticket).elements;
        changed(ticket, buffer, (11, 4), |report| Report { offered: elements[0], ..report })
    };
    ToQ15, "the elements tested before the lengths", |ticket, buffer| {
        swapped(ticket, buffer, 8, element_refused(ticket))
    };
    ToQ15, "the destination's bytes tested before the source's", |ticket, buffer| {
        swapped(ticket, buffer, 8, bytes_refused(ticket.bytes(), 2))
    };
    ToQ15, "the numbers of elements tested before the bytes", |ticket, buffer| {
        swapped(ticket, buffer, 8, elements_refused(ticket))
    };
    ToQ15, "a rest of the source left out", |ticket, buffer| {
        let source = source(ticket);
        if source.rest > 0 {
            let whole = Source { rest: 0, ..source.clone() };
            right(&Ticket::ToQ15 { source: whole, bytes: ticket.bytes() }, buffer)
        } else {
            right(ticket, buffer)
        }
    };
    ToQ15, "a byte of the destination left out", |ticket, buffer| {
        let source = source(ticket).clone();
        right(&Ticket::ToQ15 { source, bytes: ticket.bytes() / 2 * 2 }, buffer)
    };
    ToQ15, "the lengths in bytes", |ticket, buffer| {
        let whole = source(ticket).rest == 0 && ticket.bytes().is_multiple_of(2);
        changed(ticket, buffer, (8, 2), |report| {
            if whole { Report::length(8 * report.expected, 2 * report.given) } else { report }
        })
    };
    ToQ15, "the byte lengths in elements", |ticket, buffer| {
        let whole = source(ticket).rest == 0;
        changed(ticket, buffer, (8, 2), |report| {
            if whole { report } else { Report::length(report.expected / 8, report.given / 8) }
        })
    };
    ToQ15, "a longer destination taken", |ticket, buffer| {
        let source = source(ticket).clone();
        let bytes = 2 * source.elements.len() as u64;
        if source.rest == 0 && ticket.bytes().is_multiple_of(2) && bytes < ticket.bytes() {
            right(&Ticket::ToQ15 { source, bytes }, buffer)
        } else {
            right(ticket, buffer)
        }
    };
    ToQ15, "a shorter destination filled as far as it goes", |ticket, buffer| {
        let report = right(ticket, buffer);
        if report.number == 8 {
            let taken = |x: &f64| is_taken(*x);
            let elements = source(ticket).elements.iter().copied().take_while(taken);
            write_fixed(&elements.map(saturated).collect::<Vec<_>>(), buffer);
        }
        report
    };
    ToQ15, "the bytes the other way round", |ticket, buffer| {
        reshaped_fixed(ticket, buffer, |numbers| {
            for number in numbers.iter_mut() {
                *number = number.swap_bytes();
            }
        })
    };
    ToQ15, "the elements the other way round", |ticket, buffer| {
        reshaped_fixed(ticket, buffer, |numbers| numbers.reverse())
    };
    ToQ15, "the count in bytes", |ticket, buffer| {
        let report = right(ticket, buffer);
        Report { count: 2 * report.count, ..report }
    };
    ToQ15, "an empty conversion refused", |ticket, buffer| {
        let empty = source(ticket).elements.is_empty();
        swapped(ticket, buffer, 0, empty.then(|| Report::plain(6)))
    };
    ToQ15, "no element refused", |ticket, buffer| {
        let report = right(ticket, buffer);
        if report.number == 11 {
            let numbers: Vec<i16> = source(ticket).elements.iter().map(|&x| saturated(x)).collect();
            write_fixed(&numbers, buffer);
            Report::accepted(numbers.len() as u64, 0.0)
        } else {
            report
        }
    };
    ToQ15, "10 for every ticket", |_ticket, _buffer| {
        Report::plain(10)
    };
];

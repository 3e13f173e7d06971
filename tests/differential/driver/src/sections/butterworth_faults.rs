//! Wrong Butterworth filters that the comparison must notice.

use std::f64::consts::{FRAC_1_SQRT_2, PI};

use crate::run::designers;
use crate::run::faults::{
    Fault, bytes_refused, changed, cleared, faults, of, reshaped, right, spoilt, swapped,
};
use crate::run::report::Report;
use crate::run::tickets::{Cascade, Kind, Section, Ticket};
use crate::sections::faults::{edge_refused, nan_refused};
use crate::sections::odd;

fn cascade(ticket: &Ticket) -> Cascade {
    ticket.cascade().expect("a Butterworth filter")
}

/// The refusals, each as if it were tested first.
fn order_refused(order: u64) -> Option<Report> {
    (!(2..=8).contains(&order)).then(|| Report::plain(6))
}

/// How many numbers a filter has.
fn numbers(order: u64) -> u64 {
    5 * order.div_ceil(2)
}

/// The refusal of a number of coefficients that the order doesn't have.
fn numbers_refused(ticket: &Ticket) -> Option<Report> {
    let order = cascade(ticket).order;
    let given = ticket.bytes() / 8;
    let known = order_refused(order).is_none() && ticket.bytes().is_multiple_of(8);
    (known && numbers(order) != given).then(|| Report::length(numbers(order), given))
}

/// The section of another ticket.
fn coefs(section: Section) -> Vec<f64> {
    designers::rust(&Ticket::BiquadCoefs { section, bytes: 40 }).taps
}

/// The right answer of an order that has this remainder by 2, its sections of second order those of
/// other qualities; the function gives the quality of a section by its number from 1 and the order.
fn requalified(
    ticket: &Ticket,
    buffer: &mut [u8],
    remainder: u64,
    quality: fn(f64, f64) -> f64,
) -> Report {
    let cascade = cascade(ticket);
    reshaped(ticket, buffer, |numbers| {
        if cascade.order % 2 != remainder {
            return;
        }
        for (k, five) in (1..=cascade.order / 2).zip(numbers.chunks_mut(5)) {
            five.copy_from_slice(&coefs(Section {
                response: cascade.response,
                centre: cascade.cutoff,
                q: quality(k as f64, cascade.order as f64),
                rate: cascade.rate,
            }));
        }
    })
}

/// The right answer, the last section of an odd order as `change` has made it.
fn ended(
    ticket: &Ticket,
    buffer: &mut [u8],
    change: impl FnOnce(Cascade, &mut [f64; 5]),
) -> Report {
    let cascade = cascade(ticket);
    reshaped(ticket, buffer, |numbers| {
        if cascade.order % 2 == 1 {
            change(cascade, numbers.last_chunk_mut().expect("a section"));
        }
    })
}

/// w0 of a filter.
fn w0(cascade: Cascade) -> f64 {
    2.0 * PI * cascade.cutoff / cascade.rate
}

/// The right answer to the filter of another order.
fn ordered(ticket: &Ticket, buffer: &mut [u8], order: fn(u64) -> u64) -> Report {
    let cascade = cascade(ticket);
    let bytes = ticket.bytes();
    let order = order(cascade.order);
    let cascade = Cascade { order, ..cascade };
    of(Ticket::ButterworthSos { cascade, bytes }, buffer)
}

pub const FAULTS: &[Fault] = faults![
    ButterworthSos, "the sections in reverse order", |ticket, buffer| {
        reshaped(ticket, buffer, |numbers| {
            *numbers = numbers.chunks(5).rev().flatten().copied().collect();
        })
    };
    ButterworthSos, "a band-pass refused before the byte length", |ticket, buffer| {
        let wrong = [2, 3].contains(&cascade(ticket).response);
        swapped(ticket, buffer, 8, wrong.then(|| Report::plain(7)))
    };
    ButterworthSos, "an unknown response refused after the byte length", |ticket, buffer| {
        swapped(ticket, buffer, 7, bytes_refused(ticket.bytes(), 8))
    };
    ButterworthSos, "a band-pass refused after the order", |ticket, buffer| {
        let cascade = cascade(ticket);
        let other = order_refused(cascade.order).filter(|_| cascade.response < 4);
        swapped(ticket, buffer, 7, other)
    };
    ButterworthSos, "a band-pass taken", |ticket, buffer| {
        let cascade = cascade(ticket);
        let taken = cascade.response == 2
            && order_refused(cascade.order).or(numbers_refused(ticket)).is_none()
            && edge_refused(cascade.cutoff, cascade.rate).is_none();
        swapped(ticket, buffer, 7, taken.then(|| Report::accepted(numbers(cascade.order), 0.0)))
    };
    ButterworthSos, "the length tested before the order", |ticket, buffer| {
        let given = ticket.bytes() / 8;
        let other = (!given.is_multiple_of(5)).then(|| Report::length(given / 5 * 5, given));
        swapped(ticket, buffer, 6, other)
    };
    ButterworthSos, "the cutoff tested before the length", |ticket, buffer| {
        let cascade = cascade(ticket);
        let whole = ticket.bytes().is_multiple_of(8);
        let other = edge_refused(cascade.cutoff, cascade.rate).filter(|_| whole);
        swapped(ticket, buffer, 8, other)
    };
    ButterworthSos, "the cutoff tested before the order", |ticket, buffer| {
        let cascade = cascade(ticket);
        swapped(ticket, buffer, 6, edge_refused(cascade.cutoff, cascade.rate))
    };
    ButterworthSos, "the length in sections", |ticket, buffer| {
        changed(ticket, buffer, (8, 2), |report| {
            if ticket.bytes().is_multiple_of(8) {
                Report::length(report.expected / 5, report.given / 5)
            } else {
                report
            }
        })
    };
    ButterworthSos, "the length in bytes", |ticket, buffer| {
        changed(ticket, buffer, (8, 2), |report| {
            if ticket.bytes().is_multiple_of(8) {
                Report::length(8 * report.expected, 8 * report.given)
            } else {
                report
            }
        })
    };
    ButterworthSos, "the numbers below a section left out", |ticket, buffer| {
        let cascade = cascade(ticket);
        if ticket.bytes().is_multiple_of(8) {
            of(Ticket::ButterworthSos { cascade, bytes: ticket.bytes() / 40 * 40 }, buffer)
        } else {
            right(ticket, buffer)
        }
    };
    ButterworthSos, "an odd order taken as the even one below", |ticket, buffer| {
        ordered(ticket, buffer, |order| if (3..8).contains(&order) { order / 2 * 2 } else { order })
    };
    ButterworthSos, "the lower half of the order", |ticket, buffer| {
        ordered(ticket, buffer, |order| order % (1 << 32))
    };
    ButterworthSos, "one quality for all sections", |ticket, buffer| {
        requalified(ticket, buffer, 0, |_, _| FRAC_1_SQRT_2)
    };
    ButterworthSos, "the angle in another order", |ticket, buffer| {
        requalified(ticket, buffer, 0, |k, order| {
            1.0 / (2.0 * libm::cos((2.0 * k - 1.0) * (PI / (2.0 * order))))
        })
    };
    ButterworthSos, "the qualities of twice the order", |ticket, buffer| {
        requalified(ticket, buffer, 0, |k, order| {
            1.0 / (2.0 * libm::cos((2.0 * k - 1.0) * PI / (4.0 * order)))
        })
    };
    ButterworthSos, "the sine in place of the cosine", |ticket, buffer| {
        requalified(ticket, buffer, 0, |k, order| {
            1.0 / (2.0 * libm::sin((2.0 * k - 1.0) * PI / (2.0 * order)))
        })
    };
    ButterworthSos, "an odd order refused", |ticket, buffer| {
        if odd::answers(ticket) && ticket.bytes().is_multiple_of(8) {
            Report::plain(6)
        } else {
            right(ticket, buffer)
        }
    };
    ButterworthSos, "an odd order's sections rounded down", |ticket, buffer| {
        let order = cascade(ticket).order;
        changed(ticket, buffer, (8, 2), |report| {
            if odd::answers(ticket) && ticket.bytes().is_multiple_of(8) {
                Report::length(5 * (order / 2), report.given)
            } else {
                report
            }
        })
    };
    ButterworthSos, "an odd order's angles of one order more", |ticket, buffer| {
        requalified(ticket, buffer, 1, |k, order| {
            1.0 / (2.0 * libm::cos(k * PI / (order + 1.0)))
        })
    };
    ButterworthSos, "an odd order with the angles of an even one", |ticket, buffer| {
        requalified(ticket, buffer, 1, |k, order| {
            1.0 / (2.0 * libm::cos((2.0 * k - 1.0) * PI / (2.0 * order)))
        })
    };
    ButterworthSos, "order 3 with a quality of 1", |ticket, buffer| {
        requalified(ticket, buffer, 1, |k, order| {
            if order == 3.0 { 1.0 } else { 1.0 / (2.0 * libm::cos(k * PI / order)) }
        })
    };
    ButterworthSos, "the first order before the others", |ticket, buffer| {
        let order = cascade(ticket).order;
        reshaped(ticket, buffer, |numbers| {
            if order % 2 == 1 {
                numbers.rotate_right(5);
            }
        })
    };
    ButterworthSos, "a high-pass's first order not negated", |ticket, buffer| {
        ended(ticket, buffer, |cascade, last| {
            if cascade.response == 1 {
                last[1] = last[0];
            }
        })
    };
    ButterworthSos, "the first order's pole with the other sign", |ticket, buffer| {
        ended(ticket, buffer, |_, last| last[3] = -last[3])
    };
    ButterworthSos, "the first order's pole from the other difference", |ticket, buffer| {
        ended(ticket, buffer, |cascade, last| {
            let (s, d) = (libm::sin(w0(cascade)), 1.0 + libm::cos(w0(cascade)));
            last[3] = -((d - s) / (s + d));
        })
    };
    ButterworthSos, "the first order's b1 in place of b2", |ticket, buffer| {
        ended(ticket, buffer, |_, last| last.swap(1, 2))
    };
    ButterworthSos, "the first order's zeros negative", |ticket, buffer| {
        ended(ticket, buffer, |_, last| {
            last[2] = -0.0;
            last[4] = -0.0;
        })
    };
    ButterworthSos, "the first order by the tangent", |ticket, buffer| {
        ended(ticket, buffer, |cascade, last| {
            let t = libm::sin(w0(cascade) / 2.0) / libm::cos(w0(cascade) / 2.0);
            let b = if cascade.response == 0 { t / (t + 1.0) } else { 1.0 / (t + 1.0) };
            *last = [b, if cascade.response == 0 { b } else { -b }, 0.0, (t - 1.0) / (t + 1.0), 0.0];
        })
    };
    ButterworthSos, "the first order's pole by a product with the inverse", |ticket, buffer| {
        ended(ticket, buffer, |cascade, last| {
            let (s, d) = (libm::sin(w0(cascade)), 1.0 + libm::cos(w0(cascade)));
            last[3] = (s - d) * (1.0 / (s + d));
        })
    };
    ButterworthSos, "a section of second order with a quality of 1/2 in its place", |ticket, buffer| {
        ended(ticket, buffer, |cascade, last| {
            last.copy_from_slice(&coefs(Section {
                response: cascade.response,
                centre: cascade.cutoff,
                q: 0.5,
                rate: cascade.rate,
            }));
        })
    };
    ButterworthSos, "an odd order's zeros where its cutoff overflows", |ticket, buffer| {
        ended(ticket, buffer, |_, last| {
            if last[0].is_nan() {
                *last = [0.0; 5];
            }
        })
    };
    ButterworthSos, "only the first section written", |ticket, buffer| {
        reshaped(ticket, buffer, |numbers| numbers.truncate(5))
    };
    ButterworthSos, "NaN numbers refused", nan_refused;
    ButterworthSos, "1 for a bad rate", |ticket, buffer| {
        let rate = cascade(ticket).rate;
        changed(ticket, buffer, (2, 1), |report| {
            if rate > 0.0 && rate.is_finite() { report } else { Report::plain(1) }
        })
    };
    ButterworthSos, "the number of sections counted", |ticket, buffer| {
        let report = right(ticket, buffer);
        Report { count: report.count / 5, ..report }
    };
    ButterworthSos, "a number written before a length is refused", |ticket, buffer| {
        spoilt(ticket, buffer, 8)
    };
    ButterworthSos, "zeros where the cutoff is refused", |ticket, buffer| {
        cleared(ticket, buffer, 2)
    };
];

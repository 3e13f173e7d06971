//! Butterworth filters of odd order, which the Rust refuses: a model of the request's definition. The
//! sections of second order are the Rust's own for the qualities that the request writes; the one of
//! first order is written out here.

use std::f64::consts::PI;

use sdrk_blocks::design::{BiquadResponse, biquad_coefs};

use crate::run::designers::{Answer, refusal};
use crate::run::report::Report;
use crate::run::tickets::{Cascade, Ticket};

/// Whether the definition answers in the Rust's place: a low-pass or a high-pass of order 3, 5 or 7.
pub fn answers(ticket: &Ticket) -> bool {
    ticket.cascade().is_some_and(|cascade| is_odd(&cascade))
}

/// The same of what is asked for.
pub fn is_odd(cascade: &Cascade) -> bool {
    [0, 1].contains(&cascade.response) && [3, 5, 7].contains(&cascade.order)
}

/// The quality of section k, counted from 1.
fn quality(k: u64, order: u64) -> f64 {
    1.0 / (2.0 * libm::cos(k as f64 * PI / order as f64))
}

/// The last section, of first order.
fn last(cascade: &Cascade) -> [f64; 5] {
    let w0 = 2.0 * PI * cascade.cutoff / cascade.rate;
    let s = libm::sin(w0);
    let d = 1.0 + libm::cos(w0);
    let (b0, b1) = match cascade.response {
        0 => (s / (s + d), s / (s + d)),
        _ => (d / (s + d), -(d / (s + d))),
    };
    [b0, b1, 0.0, (s - d) / (s + d), 0.0]
}

/// The filter in a buffer of `count` numbers.
pub fn filter(response: BiquadResponse, cascade: &Cascade, count: u64) -> Answer {
    let pairs = (cascade.order - 1) / 2;
    let numbers = 5 * (pairs + 1);
    if count != numbers {
        return Report::length(numbers, count).into();
    }
    let sections: Result<Vec<_>, _> = (1..=pairs)
        .map(|k| {
            let q = quality(k, cascade.order);
            biquad_coefs(response, cascade.cutoff, q, cascade.rate)
        })
        .collect();
    match sections {
        Err(error) => refusal(error).into(),
        Ok(mut sections) => {
            sections.push(last(cascade));
            Answer {
                report: Report::accepted(numbers, 0.0),
                taps: sections.concat(),
                ..Answer::default()
            }
        }
    }
}

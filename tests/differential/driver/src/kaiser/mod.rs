//! The Rust's answers to the series and to Kaiser's formulas, and the requests' to a series that doesn't settle and to
//! the delay in half samples.

pub mod faults;
pub mod inputs;
pub mod kinds;
pub mod settling;

use sdrk_blocks::design::{halfband_len, kaiser_beta, kaiserord};
use sdrk_core::window::bessel_i0;

use crate::functions::same;
use crate::kaiser::settling::{Series, series};
use crate::run::designers::{counted, refusal};
use crate::run::report::Report;

/// The Rust's series, with the number of terms of the scope document's. One that doesn't settle is
/// the request's 16, with what was reached.
pub fn rust_series(x: f64) -> Report {
    let Series {
        sum,
        terms,
        settled,
    } = series(x);
    let value = bessel_i0(x);
    assert!(same(sum, value), "the counted series of {x:?} is another");
    Report {
        number: if settled { 0 } else { 16 },
        ..Report::accepted(terms, value)
    }
}

/// The Rust's shape of Kaiser's window.
pub fn beta(attenuation: f64) -> Report {
    Report::accepted(0, kaiser_beta(attenuation))
}

/// The Rust's number of taps and beta.
pub fn order(ripple: f64, transition: f64, rate: f64) -> Report {
    kaiserord(ripple, transition, rate).map_or_else(refusal, |(count, beta)| {
        Report::accepted(count as u64, beta)
    })
}

/// The Rust's number of taps of a half-band.
pub fn halfband_length(transition: f64, attenuation: f64, rate: f64) -> Report {
    counted(halfband_len(transition, attenuation, rate))
}

/// The request's delay in half samples. design.rs has none; that of the Rust's channelizers, which is a fraction of
/// samples, is held to this by the known answers.
pub fn delay(taps: u64) -> Report {
    match taps {
        0 => Report::plain(6),
        _ => Report::accepted(taps - 1, 0.0),
    }
}

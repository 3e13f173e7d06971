//! Whether the series that Kaiser's window takes settle, by the request's definition, and its refusal 16 in place of the
//! Rust's answer where one doesn't. Where all of them do, the Rust is the reference.

use crate::run::designers::Answer;
use crate::run::report::Report;

/// The elements are tried one by one where beta is above this: to try them all takes as long as a design. None of their
/// arguments is above beta, and up to here a series meets its test within 229 terms, with a sum of 5e128 at most.
const TRIED_ABOVE: f64 = 300.0;

/// What a Bessel series came to.
pub struct Series {
    pub sum: f64,
    pub terms: u64,
    /// Whether its test was met, at the 500th term at the latest, and the sum is finite.
    pub settled: bool,
}

/// The Bessel series by the scope document: a term after another until one is below 1e-17 of the
/// sum, at most 500.
pub fn series(x: f64) -> Series {
    let (mut term, mut sum) = (1.0, 1.0);
    for terms in 1..=500 {
        let factor = x / 2.0 / terms as f64;
        term *= factor * factor;
        sum += term;
        if term < 1e-17 * sum {
            return Series {
                sum,
                terms,
                settled: f64::is_finite(sum),
            };
        }
    }
    Series {
        sum,
        terms: 500,
        settled: false,
    }
}

/// Whether the series at a number is settled.
pub fn is_settled(x: f64) -> bool {
    series(x).settled
}

/// What the window takes the series of at element `i`.
pub fn argument(beta: f64, divisor: u64, i: u64) -> f64 {
    let t = 2.0 * i as f64 / divisor as f64 - 1.0;
    beta * libm::sqrt((1.0 - t * t).max(0.0))
}

/// Whether every series that a window takes is settled, at beta and at each element. With the length
/// divisor 0 it takes none.
pub fn settles(beta: f64, divisor: u64, count: u64) -> bool {
    divisor == 0
        || is_settled(beta)
            && (beta <= TRIED_ABOVE || (0..count).all(|i| is_settled(argument(beta, divisor, i))))
}

/// The Rust's answer where the window settles, else 16. Of the Rust's refusals 10 alone comes behind
/// it.
pub fn judged(answer: Answer, beta: f64, divisor: u64, count: u64) -> Answer {
    if matches!(answer.report.number, 0 | 10) && !settles(beta, divisor, count) {
        Report::plain(16).into()
    } else {
        answer
    }
}

/// The same of a design, whose divisor is one less than its taps.
pub fn judged_taps(answer: impl Into<Answer>, beta: f64, taps: u64) -> Answer {
    judged(answer.into(), beta, taps.saturating_sub(1), taps)
}

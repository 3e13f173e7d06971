//! Records that no design gave: what a turn of them comes to, by what they say, and random ones.
//!
//! The Rust keeps no series, so a new cutoff of a record with another one is answered by a model of the definition,
//! Kaiser's window divided by the record's value. With the right value it must be the Rust's low-pass.

use std::f64::consts::PI;

use sdrk_core::window::bessel_i0;

use crate::lowpass;
use crate::retune::{Design, Expected, KAISER, Turn, inputs, record_of};
use crate::run::designers::Answer;
use crate::run::draw::{COUNTS, Draw};
use crate::run::random::Random;
use crate::run::report::{Report, bits};
use crate::run::tickets::Band;

/// A low-pass of several taps whose numbers are taken, Kaiser's window divided by `series`.
fn divided(fraction: f64, beta: f64, series: f64, count: u64) -> Answer {
    let last = (count - 1) as f64;
    let raw = |i: u64| {
        let i = i as f64;
        let x = 2.0 * fraction * (i - last / 2.0);
        let sinc = if x == 0.0 {
            1.0
        } else {
            libm::sin(PI * x) / (PI * x)
        };
        let t = 2.0 * i / last - 1.0;
        let arg = (1.0 - t * t).max(0.0);
        2.0 * fraction * sinc * (bessel_i0(beta * libm::sqrt(arg)) / series)
    };
    let raws: Vec<f64> = (0..count).map(raw).collect();
    let sum = raws.iter().fold(0.0, |sum, raw| sum + raw);
    if !(sum.is_finite() && sum != 0.0) {
        return Report::plain(10).into();
    }
    Answer {
        report: Report::accepted(count, sum),
        taps: raws.iter().map(|raw| raw / sum).collect(),
        ..Answer::default()
    }
}

fn same(one: &Answer, other: &Answer) -> bool {
    let words = |answer: &Answer| answer.taps.iter().copied().map(bits).collect::<Vec<_>>();
    one.report.same(&other.report) && words(one) == words(other)
}

/// The low-pass of the numbers, its window divided by `series`.
fn filled(band: &Band, series: f64, bytes: u64) -> Answer {
    let rust = lowpass::filled(band, bytes);
    let judged = rust.report.is_accepted() || rust.report.number == 10;
    if band.window != KAISER || bytes < 16 || !judged {
        return rust;
    }
    let ours = divided(band.cutoff / band.rate, band.beta, series, bytes / 8);
    if bits(series) == bits(bessel_i0(band.beta)) {
        assert!(same(&ours, &rust), "the model's low-pass is another");
    }
    ours
}

/// What a turn of any record comes to.
pub fn expected(kept: &Design, turn: &Turn, bytes: u64) -> Expected {
    let unknown = (kept.window > KAISER).then(|| Report::plain(7));
    let refused = unknown.or_else(|| turn.refused(kept.window, kept.taps, bytes));
    // The numbers that the record says: a fraction is a cutoff at the rate 1.
    let said = Band {
        cutoff: kept.fraction,
        rate: 1.0,
        window: kept.window,
        beta: kept.beta,
    };
    let band = turn.put(&said);
    let answer = match (refused, turn) {
        (Some(report), _) => report.into(),
        (None, Turn::Cutoff { .. }) => filled(&band, kept.series, bytes),
        (None, Turn::Beta { .. }) => lowpass::filled(&band, bytes),
    };
    let design = match turn {
        _ if !answer.report.is_accepted() => *kept,
        Turn::Cutoff { .. } => Design {
            series: kept.series,
            ..record_of(&band, kept.taps, answer.report.value)
        },
        Turn::Beta { .. } => record_of(&band, kept.taps, answer.report.value),
    };
    Expected { answer, design }
}

/// A random record, a turn of it and the length of the buffer.
pub fn draw(random: &mut Random) -> (Design, Turn, u64) {
    let mut draw = Draw::new(random);
    let draw = &mut draw;
    let few = draw.random.below(24);
    let many = draw.one_of(&COUNTS);
    let taps = draw.one_of(&[few, few, few, few, few, few, 1, many]);
    let inside = draw.random.uniform(0.0, 0.5);
    let fractions = [f64::NAN, 0.0, 0.5, -0.1, 0.6, f64::INFINITY, -0.0];
    let outside = draw.one_of(&fractions);
    let any = draw.random.bits();
    let unknown = draw.one_of(&[4, any | 4, 1 << 32, (1 << 32) + 3, u64::MAX]);
    let beta = draw.beta();
    let right = bessel_i0(beta);
    let wrong = draw.one_of(&[f64::NAN, f64::INFINITY, 0.0, 2.0, -1.0, right * 0.5, -0.0]);
    let sum = draw.one_of(&[0.0, 1.0, f64::NAN, f64::INFINITY, f64::from_bits(any)]);
    let design = Design {
        taps,
        fraction: draw.one_of(&[inside, inside, inside, outside]),
        window: draw.one_of(&[0, 1, 2, 3, 3, 3, 3, unknown]),
        beta,
        series: draw.one_of(&[right, right, 2.0, wrong]),
        sum,
    };
    // A buffer for as many taps is lent where the record has few of them.
    let bytes = inputs::bytes(draw, taps.min(24));
    let turn = inputs::turn(draw, design.window);
    (design, turn, bytes)
}

//! Times sections, Butterworth filters and pre-emphasis on both sides, and an odd order, which the
//! Rust hasn't, beside an even one.

use std::f64::consts::FRAC_1_SQRT_2;
use std::hint::black_box;

use sdrk_blocks::design::{BiquadResponse, biquad_coefs, butterworth_sos, preemphasis_coefs};

use crate::run::bench::{CUTOFFS, pass, rounds, time_design};
use crate::run::port;
use crate::run::tickets::{Cascade, Section};

/// Neither side may know a number beforehand. Where the Rust gives its numbers back they are copied
/// into the buffer.
pub fn run() {
    let section = |centre| {
        black_box(Section {
            response: 0,
            centre,
            q: FRAC_1_SQRT_2,
            rate: 1.0,
        })
    };
    time_design(
        "biquad_coefs",
        (5, "numbers"),
        &CUTOFFS,
        |centre, out| port::biquad_coefs(&section(centre), out).is_accepted(),
        |centre, out| {
            let Section { q, rate, .. } = section(centre);
            biquad_coefs(black_box(BiquadResponse::Lowpass), centre, q, rate)
                .map(|coefs| out.copy_from_slice(&coefs))
                .is_ok()
        },
    );
    let filter = |response, order, cutoff| {
        black_box(Cascade {
            response,
            order,
            cutoff,
            rate: 1.0,
        })
    };
    let cascade = |cutoff| filter(0, 8, cutoff);
    time_design(
        "butterworth_sos, order 8",
        (20, "numbers"),
        &CUTOFFS,
        |cutoff, out| port::butterworth_sos(&cascade(cutoff), out).is_accepted(),
        |cutoff, out| {
            let Cascade { order, rate, .. } = cascade(cutoff);
            let response = black_box(BiquadResponse::Lowpass);
            let (sections, _) = out.as_chunks_mut();
            butterworth_sos(response, order as usize, cutoff, rate, sections).is_ok()
        },
    );
    for (response, name) in [(0, "low-pass"), (1, "high-pass")] {
        let time = |order| {
            let mut out = [0; 160];
            pass(&CUTOFFS, 20, |cutoff| {
                let cascade = filter(response, order, cutoff);
                port::butterworth_sos(&cascade, black_box(&mut out)).is_accepted()
            })
        };
        let (seven, eight) = rounds(|| time(7), || time(8));
        println!(
            "butterworth_sos, {name}: order 7 {seven:.3} us, order 8 {eight:.3} us, ratio {:.2}",
            seven / eight,
        );
    }
    time_design(
        "preemphasis_coefs",
        (3, "numbers"),
        &[50e-6, 75e-6],
        |tau, out| port::preemphasis_coefs(tau, black_box(48_000.0), out).is_accepted(),
        |tau, out| {
            preemphasis_coefs(tau, black_box(48_000.0))
                .map(|coefs| out.copy_from_slice(&coefs))
                .is_ok()
        },
    );
}

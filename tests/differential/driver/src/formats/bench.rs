//! Times the conversions on both sides, of the same taps or sections.

use std::hint::black_box;

use sdrk_blocks::design::{
    BiquadResponse, DesignWindow, butterworth_sos, firwin_lowpass, to_f32, to_f32_sos, to_q14,
    to_q15,
};
use sdrk_core::Q15;

use crate::run::bench::{pass, print, rounds};
use crate::run::port;
use crate::run::report::Report;

/// The taps of a Hamming low-pass.
fn taps(count: usize) -> Vec<f64> {
    let mut taps = vec![0.0; count];
    let design = firwin_lowpass(0.21, 1.0, DesignWindow::Hamming, &mut taps);
    assert!(design.is_ok(), "the design is refused");
    taps
}

/// The sections of Butterworth filters of order 8, four each.
fn sections(filters: usize) -> Vec<f64> {
    let mut all = vec![[0.0; 5]; 4 * filters];
    for (i, sections) in all.chunks_mut(4).enumerate() {
        let cutoff = 0.1 + 0.2 * i as f64 / filters as f64;
        let design = butterworth_sos(BiquadResponse::Lowpass, 8, cutoff, 1.0, sections);
        assert!(design.is_ok(), "the design is refused");
    }
    all.concat()
}

/// Times a conversion of the elements to those of another format, again and again.
fn time_conversion<E: Clone>(
    name: &str,
    source: &[f64],
    mut numbers: Vec<E>,
    port: fn(&[u8], &mut [u8]) -> Report,
    rust: impl Fn(&[f64], &mut [E]) -> bool,
) {
    let count = source.len();
    let bytes: Vec<u8> = source.iter().flat_map(|x| x.to_le_bytes()).collect();
    let mut out = vec![0; size_of_val(&numbers[..])];
    // The number that runs through a pass has no part here.
    let times = rounds(
        || {
            pass(&[0.0], count, |_| {
                port(black_box(&bytes), black_box(&mut out)).is_accepted()
            })
        },
        || {
            pass(&[0.0], count, |_| {
                rust(black_box(source), black_box(&mut numbers))
            })
        },
    );
    print(name, count, "elements", times);
}

/// Prints for each conversion the median over the rounds on both sides, and their ratio.
pub fn run() {
    println!("conversions:");
    let taps = taps(1023);
    let sections = sections(50);
    let rust = |source: &[f64], out: &mut [Q15]| to_q15(source, out).is_ok();
    time_conversion("to_q15", &taps, vec![Q15(0); 1023], port::to_q15, rust);
    let rust = |source: &[f64], out: &mut [f32]| to_f32(source, out).is_ok();
    time_conversion("to_f32", &taps, vec![0.0; 1023], port::to_f32, rust);
    // The Rust has whole sections on both sides, as it stores them.
    let rust = |source: &[f64], out: &mut [i16]| {
        to_q14(source.as_chunks().0, out.as_chunks_mut().0).is_ok()
    };
    time_conversion("to_q14", &sections, vec![0; 1000], port::to_q14, rust);
    let rust = |source: &[f64], out: &mut [f32]| {
        to_f32_sos(source.as_chunks().0, out.as_chunks_mut().0).is_ok()
    };
    time_conversion(
        "to_f32_sos",
        &sections,
        vec![0.0; 1000],
        port::to_f32_sos,
        rust,
    );
}

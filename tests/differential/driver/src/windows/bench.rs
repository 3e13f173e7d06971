//! Times the windows and their gain on both sides.

use std::hint::black_box;

use sdrk_core::window::{Symmetry, window_gain};
use sdrk_core::{Q15, RealSample};

use crate::run::bench::{BETA, pass, print, rounds};
use crate::run::port;
use crate::run::tickets::{Form, Format, Window};
use crate::windows;

/// How many samples a window has.
const SAMPLES: usize = 1024;

/// Times periodic windows of a form; a Kaiser window's beta runs through a pass.
fn time_window<R: RealSample>(name: &str, form: fn(f64) -> Form, format: Format) {
    let mut bytes = vec![0; SAMPLES * format.width() as usize];
    let mut samples = [R::ZERO; SAMPLES];
    let window = |beta| Window {
        form: form(beta),
        format,
        symmetry: 0,
    };
    let times = rounds(
        || {
            pass(&[BETA], SAMPLES, |beta| {
                port::window(&window(beta), black_box(&mut bytes)).is_accepted()
            })
        },
        || {
            pass(&[BETA], SAMPLES, |beta| {
                windows::fill(form(beta), Symmetry::Periodic, black_box(&mut samples[..])).is_ok()
            })
        },
    );
    print(name, SAMPLES, "samples", times);
}

fn time_gain() {
    let mut samples = [0.0_f32; SAMPLES];
    let design = windows::fill(Form::Hann, Symmetry::Periodic, &mut samples[..]);
    assert!(design.is_ok(), "the window is refused");
    let bytes: Vec<u8> = samples.iter().flat_map(|x| x.to_le_bytes()).collect();
    // The number that runs through a pass has no part here.
    let times = rounds(
        || {
            pass(&[0.0], SAMPLES, |_| {
                port::window_gain(black_box(&bytes)).number == 0
            })
        },
        || {
            pass(&[0.0], SAMPLES, |_| {
                let (gain, bandwidth) = black_box(window_gain(black_box(&samples)));
                gain > 0.0 && bandwidth > 0.0
            })
        },
    );
    print("window_gain", SAMPLES, "samples", times);
}

/// Prints for each window the median over the rounds on both sides, and their ratio.
pub fn run() {
    println!("windows:");
    let kaiser = |beta| Form::Kaiser { beta };
    time_window::<f32>("hann_f32", |_| Form::Hann, Format::F32);
    time_window::<Q15>("hann_q15", |_| Form::Hann, Format::Q15);
    time_window::<f32>("blackman_harris_f32", |_| Form::BlackmanHarris, Format::F32);
    time_window::<Q15>("blackman_harris_q15", |_| Form::BlackmanHarris, Format::Q15);
    time_window::<f32>("kaiser_f32", kaiser, Format::F32);
    time_window::<Q15>("kaiser_q15", kaiser, Format::Q15);
    time_gain();
}

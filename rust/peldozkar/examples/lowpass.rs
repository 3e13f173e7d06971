//! A low-pass of 31 taps, and how much of a few tones passes it.

use std::f64::consts::TAU;

use peldozkar::{Error, Window, lowpass};

const CUTOFF: f64 = 1000.0;
const RATE: f64 = 8000.0;

/// How much of a sine of so many hertz passes.
fn passed(taps: &[f64], hertz: f64) -> f64 {
    let middle = (taps.len() - 1) as f64 / 2.0;
    let turned = |(i, tap): (usize, &f64)| tap * (TAU * hertz / RATE * (i as f64 - middle)).cos();
    taps.iter().enumerate().map(turned).sum::<f64>().abs()
}

fn main() -> Result<(), Error> {
    let mut taps = [0.0; 31];
    let design = lowpass(CUTOFF, RATE, Window::Hamming, &mut taps)?;
    println!("{} taps, divided by {:.6}", design.taps, design.divisor);
    for hertz in [0.0, 500.0, 1000.0, 2000.0] {
        println!("{hertz:4} Hz: {:.4}", passed(&taps, hertz));
    }

    // A level passes whole, the cutoff by half, twice the cutoff hardly.
    assert!((passed(&taps, 0.0) - 1.0).abs() < 1e-14);
    assert!((passed(&taps, CUTOFF) - 0.5).abs() < 0.01);
    assert!(passed(&taps, 2.0 * CUTOFF) < 0.005);
    Ok(())
}

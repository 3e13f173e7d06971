//! A half-band that halves a rate: every other tap is 0, and the others are mirror images to the bit, so that a
//! sample takes about a quarter of the products.

use peldozkar::{Error, halfband, halfband_len, kaiser_beta};

const ATTENUATION: f64 = 60.0;

fn main() -> Result<(), Error> {
    let n = halfband_len(1000.0, ATTENUATION, 8000.0)? as usize;
    let mut taps = vec![0.0; n];
    halfband(kaiser_beta(ATTENUATION), &mut taps)?;
    let left = &taps[..n / 2];
    let products = 1 + left.iter().filter(|tap| **tap != 0.0).count();
    println!("{n} taps, {products} products a sample");

    // Every second sample of a level, the mirror images added first.
    let level = [3.0; 128];
    let middle = taps[n / 2];
    let halved: Vec<f64> = level
        .windows(n)
        .step_by(2)
        .map(|x| {
            let pairs = left.iter().zip(x).zip(x.iter().rev());
            middle * x[n / 2] + pairs.map(|((tap, a), b)| tap * (a + b)).sum::<f64>()
        })
        .collect();
    println!(
        "{} samples became {}: {:.6}",
        level.len(),
        halved.len(),
        halved[0]
    );

    assert!(taps.iter().eq(taps.iter().rev()));
    assert_eq!(products, n / 4 + 2);
    assert!(halved.iter().all(|y| (y - 3.0).abs() < 1e-14));
    Ok(())
}

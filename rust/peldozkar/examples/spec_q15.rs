//! A low-pass by what it has to do, as Q15 numbers in the room that there is. A refusal says how many taps are
//! needed, and the transition is made wider until they fit.

use peldozkar::{Carried, Error, Reason, Spec, to_q15};

/// The taps that there is room for.
const ROOM: usize = 64;
const RATE: f64 = 8000.0;

/// Fills the front of `out`; how many numbers of it.
fn design(spec: &Spec, out: &mut [i16; ROOM]) -> Result<usize, Error> {
    // At most ROOM, or refused.
    let n = spec.num_taps(RATE, ROOM as u64)? as usize;
    let mut taps = [0.0; ROOM];
    spec.design(RATE, ROOM as u64, &mut taps[..n])?;
    to_q15(&taps[..n], &mut out[..n])?;
    Ok(n)
}

fn main() -> Result<(), Error> {
    let mut numbers = [0; ROOM];
    let mut spec = Spec {
        cutoff: 1000.0,
        transition: 200.0,
        attenuation: 60.0,
    };
    let n = loop {
        match design(&spec, &mut numbers) {
            Ok(n) => break n,
            Err(Error {
                reason: Reason::Cap,
                carried: Carried::Cap {
                    needed, allowed, ..
                },
            }) => println!(
                "{} Hz wide: {needed} taps, room for {allowed}",
                spec.transition
            ),
            Err(other) => return Err(other),
        }
        spec.transition *= 2.0;
    };
    println!("{} Hz wide: {n} taps, {:?}", spec.transition, &numbers[..n]);

    // It was too sharp twice. A number is off its tap by a half at most, so their sum is off 1 by n/2 or little more.
    assert_eq!(spec.transition, 800.0);
    let sum: i32 = numbers[..n].iter().map(|number| i32::from(*number)).sum();
    assert!((sum - 32768).unsigned_abs() as usize <= n / 2 + 1);

    // No room helps a cutoff beyond half of the rate.
    spec.cutoff = 5000.0;
    let error = design(&spec, &mut numbers).expect_err("half of the rate is 4000 Hz");
    println!("{error}");
    assert_eq!(error.reason, Reason::Frequency);
    Ok(())
}

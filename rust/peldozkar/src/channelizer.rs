//! The prototype filter of a channelizer.

use crate::raw;
use crate::sys::bytes_mut;
use crate::{Design, Error};

/// How many taps Kaiser's estimate has for band edges in channel spacings, not made odd.
///
/// # Errors
///
/// Refused, in this order:
/// - 6 `channels` isn't a power of two from 4 to 256
/// - 2 a passband that isn't finite and positive
/// - 2 a stopband that isn't above the passband and at most 1.5
/// - 4 (20, 120, attenuation)
/// - 3 the estimate isn't finite or is above 2^24
///
/// # Examples
///
/// ```
/// assert_eq!(peldozkar::channelizer_taps(16, 0.5, 1.0, 60.0), Ok(118));
/// ```
pub fn channelizer_taps(
    channels: u64,
    passband: f64,
    stopband: f64,
    attenuation: f64,
) -> Result<u64, Error> {
    raw::pel_channelizer_taps(channels, passband, stopband, attenuation).counted()
}

/// How many of the [`channelizer_taps`] a branch takes, rounded up. Refused as they are.
///
/// ```
/// assert_eq!(peldozkar::channelizer_taps_per_branch(16, 0.5, 1.0, 60.0), Ok(8));
/// ```
pub fn channelizer_taps_per_branch(
    channels: u64,
    passband: f64,
    stopband: f64,
    attenuation: f64,
) -> Result<u64, Error> {
    raw::pel_channelizer_taps_per_branch(channels, passband, stopband, attenuation).counted()
}

/// The judgement of [`channelizer_prototype`] without a buffer.
///
/// ```
/// # fn main() -> Result<(), peldozkar::Error> {
/// assert_eq!(peldozkar::channelizer_lowpass(16, 8, 0.5, 1.0, 60.0)?.taps, 128);
/// # Ok(())
/// # }
/// ```
pub fn channelizer_lowpass(
    channels: u64,
    branch: u64,
    passband: f64,
    stopband: f64,
    attenuation: f64,
) -> Result<Design, Error> {
    Design::of(raw::pel_channelizer_lowpass(
        channels,
        branch,
        passband,
        stopband,
        attenuation,
    ))
}

/// Fills `out` with the prototype low-pass of `channels * branch` taps, its cutoff half way between the edges.
///
/// # Errors
///
/// Refused, in this order, with `out` as it came:
/// - 6 `channels` isn't a power of two from 4 to 256
/// - 6 `branch` isn't 4 to 32
/// - 2, 2, 4 as [`channelizer_taps`]
/// - then as [`lowpass`](crate::lowpass) at rate 1: 2 (a cutoff that underflows) can occur; a beta of 12.3 at most
///   settles
/// - 8 `out` isn't that many taps
///
/// # Examples
///
/// ```
/// # fn main() -> Result<(), peldozkar::Error> {
/// let mut taps = [0.0; 128];
/// peldozkar::channelizer_prototype(16, 8, 0.5, 1.0, 60.0, &mut taps)?;
/// assert!((taps.iter().sum::<f64>() - 1.0).abs() < 1e-14);
/// # Ok(())
/// # }
/// ```
pub fn channelizer_prototype(
    channels: u64,
    branch: u64,
    passband: f64,
    stopband: f64,
    attenuation: f64,
    out: &mut [f64],
) -> Result<Design, Error> {
    Design::of(raw::pel_channelizer_prototype(
        channels,
        branch,
        passband,
        stopband,
        attenuation,
        bytes_mut(out),
    ))
}

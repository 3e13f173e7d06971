//! A program without std that calls the crate: tests/rust compiles it as a static library. It has a panic handler
//! of its own, which the compiler refuses as a second one if std is linked by anything below.

#![no_std]

use core::panic::PanicInfo;

use peldozkar::{Window, lowpass, to_q15};

#[panic_handler]
fn panic(_: &PanicInfo) -> ! {
    loop {}
}

/// Designs 31 taps as Q15 numbers: 0, or the refusal's number.
///
/// # Safety
///
/// `out` must be 31 numbers that nobody else uses.
#[unsafe(no_mangle)]
pub unsafe extern "C" fn firmware_taps(cutoff: f64, rate: f64, out: *mut [i16; 31]) -> u32 {
    let mut taps = [0.0; 31];
    // SAFETY: the caller says so.
    let out = unsafe { &mut *out };
    lowpass(cutoff, rate, Window::Hamming, &mut taps)
        .and_then(|_| to_q15(&taps, out))
        .map_or_else(|error| error.number(), |()| 0)
}

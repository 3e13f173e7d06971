//! The C functions, and the calls of those that take memory. All that is unsafe in this crate is here.
//!
//! The exports are proved to be defined for every number, to write nothing but the buffer that they are lent
//! and to read nothing but their source. They ask of a caller `bytes` bytes at a pointer that isn't null, that
//! nobody else uses meanwhile. A slice is all of that, also an empty one, and a `&mut` slice never overlaps
//! another one.

#![allow(unsafe_code)]

use core::slice;

use crate::raw::{Card, Cosines, Design, GainReport, Loaded, Reading, Report, Ticket, Tuned};

mod border {
    use super::{Card, Cosines, Design, GainReport, Loaded, Reading, Report, Ticket, Tuned};

    #[link(name = "peldozkar", kind = "static")]
    unsafe extern "C" {
        // Defined for every number, and no memory is touched: safe as they stand.

        /// The greatest whole number that is not above `x`.
        pub safe fn pel_floor(x: f64) -> f64;
        /// The least whole number that is not below `x`.
        pub safe fn pel_ceil(x: f64) -> f64;
        /// `x` with its sign cleared.
        pub safe fn pel_fabs(x: f64) -> f64;
        /// The square root.
        pub safe fn pel_sqrt(x: f64) -> f64;
        /// The sine.
        pub safe fn pel_sin(x: f64) -> f64;
        /// The cosine.
        pub safe fn pel_cos(x: f64) -> f64;
        /// e to the power `x`.
        pub safe fn pel_exp(x: f64) -> f64;
        /// `v` to the power 0.4.
        pub safe fn pel_pow04(v: f64) -> f64;
        /// The modified Bessel function of order 0: the sum, the number of terms, and whether it is settled.
        pub safe fn pel_bessel_i0(x: f64) -> Report;
        /// The shape of Kaiser's window.
        pub safe fn pel_kaiser_beta(attenuation: f64) -> f64;
        /// Kaiser's taps and beta.
        pub safe fn pel_kaiserord(ripple: f64, transition: f64, rate: f64) -> Report;
        /// The taps of a half-band filter.
        pub safe fn pel_halfband_len(transition: f64, attenuation: f64, rate: f64) -> Report;
        /// Half samples that a linear-phase filter delays by.
        pub safe fn pel_delay(taps: u64) -> Report;
        /// A low-pass, judged without a buffer.
        pub safe fn pel_lowpass_new(
            cutoff: f64,
            rate: f64,
            window: u64,
            beta: f64,
            taps: u64,
        ) -> Report;
        /// A low-pass with a loaded window, judged without a buffer.
        pub safe fn pel_lowpass_cosines_new(
            cutoff: f64,
            rate: f64,
            window: Cosines,
            taps: u64,
        ) -> Report;
        /// The taps that a specification needs.
        pub safe fn pel_spec_num_taps(
            cutoff: f64,
            transition: f64,
            attenuation: f64,
            rate: f64,
            max_taps: u64,
        ) -> Report;
        /// A specification's low-pass, judged without a buffer.
        pub safe fn pel_spec_lowpass(
            cutoff: f64,
            transition: f64,
            attenuation: f64,
            rate: f64,
            max_taps: u64,
        ) -> Report;
        /// A half-band filter, judged without a buffer.
        pub safe fn pel_halfband_new(beta: f64, taps: u64) -> Report;
        /// A Gaussian pulse, judged without a buffer.
        pub safe fn pel_gaussian_new(bt: f64, samples: u64, span: u64) -> Report;
        /// A root-raised-cosine pulse, judged without a buffer.
        pub safe fn pel_rrc_new(rolloff: f64, samples: u64, span: u64) -> Report;
        /// The taps of a root-raised-cosine pulse.
        pub safe fn pel_rrc_len(samples: u64, span: u64) -> Report;
        /// The taps that a channelizer's edges need.
        pub safe fn pel_channelizer_taps(
            channels: u64,
            passband: f64,
            stopband: f64,
            attenuation: f64,
        ) -> Report;
        /// The same for one branch.
        pub safe fn pel_channelizer_taps_per_branch(
            channels: u64,
            passband: f64,
            stopband: f64,
            attenuation: f64,
        ) -> Report;
        /// A channelizer's prototype, judged without a buffer.
        pub safe fn pel_channelizer_lowpass(
            channels: u64,
            branch: u64,
            passband: f64,
            stopband: f64,
            attenuation: f64,
        ) -> Report;
        /// The Q15 number next to `x`.
        pub safe fn pel_q15_from_f64(x: f64) -> i16;
        /// A tap as a Q15 number.
        pub safe fn pel_q15_tap(tap: f64) -> Report;
        /// A coefficient as a Q14 number.
        pub safe fn pel_q14_from_f64(x: f64) -> Report;
        /// A ticket, judged without a buffer.
        pub safe fn pel_judge_ticket(ticket: Ticket) -> Report;

        // These take memory.

        pub unsafe fn pel_lowpass(
            cutoff: f64,
            rate: f64,
            window: u64,
            beta: f64,
            out: *mut u8,
            bytes: usize,
        ) -> Report;
        pub unsafe fn pel_load_cosines(source: *const u8, source_bytes: usize) -> Loaded;
        pub unsafe fn pel_lowpass_cosines(
            cutoff: f64,
            rate: f64,
            window: Cosines,
            out: *mut u8,
            bytes: usize,
        ) -> Report;
        pub unsafe fn pel_design_lowpass(
            cutoff: f64,
            rate: f64,
            window: u64,
            beta: f64,
            out: *mut u8,
            bytes: usize,
        ) -> Tuned;
        pub unsafe fn pel_design_new_cutoff(
            design: Design,
            cutoff: f64,
            rate: f64,
            out: *mut u8,
            bytes: usize,
        ) -> Tuned;
        pub unsafe fn pel_design_new_beta(
            design: Design,
            beta: f64,
            out: *mut u8,
            bytes: usize,
        ) -> Tuned;
        pub unsafe fn pel_spec_design(
            cutoff: f64,
            transition: f64,
            attenuation: f64,
            rate: f64,
            max_taps: u64,
            out: *mut u8,
            bytes: usize,
        ) -> Report;
        pub unsafe fn pel_halfband(beta: f64, out: *mut u8, bytes: usize) -> Report;
        pub unsafe fn pel_gaussian(
            bt: f64,
            samples: u64,
            span: u64,
            out: *mut u8,
            bytes: usize,
        ) -> Report;
        pub unsafe fn pel_rrc(
            rolloff: f64,
            samples: u64,
            span: u64,
            out: *mut u8,
            bytes: usize,
        ) -> Report;
        pub unsafe fn pel_channelizer_prototype(
            channels: u64,
            branch: u64,
            passband: f64,
            stopband: f64,
            attenuation: f64,
            out: *mut u8,
            bytes: usize,
        ) -> Report;
        pub unsafe fn pel_biquad_coefs(
            response: u64,
            centre: f64,
            q: f64,
            rate: f64,
            out: *mut u8,
            bytes: usize,
        ) -> Report;
        pub unsafe fn pel_butterworth_sos(
            response: u64,
            order: u64,
            cutoff: f64,
            rate: f64,
            out: *mut u8,
            bytes: usize,
        ) -> Report;
        pub unsafe fn pel_preemphasis_coefs(
            tau: f64,
            rate: f64,
            out: *mut u8,
            bytes: usize,
        ) -> Report;
        pub unsafe fn pel_to_q15(
            source: *const u8,
            source_bytes: usize,
            out: *mut u8,
            bytes: usize,
        ) -> Report;
        pub unsafe fn pel_to_q14(
            source: *const u8,
            source_bytes: usize,
            out: *mut u8,
            bytes: usize,
        ) -> Report;
        pub unsafe fn pel_to_f32(
            source: *const u8,
            source_bytes: usize,
            out: *mut u8,
            bytes: usize,
        ) -> Report;
        pub unsafe fn pel_to_f32_sos(
            source: *const u8,
            source_bytes: usize,
            out: *mut u8,
            bytes: usize,
        ) -> Report;
        pub unsafe fn pel_hann_f32(symmetry: u64, out: *mut u8, bytes: usize) -> Report;
        pub unsafe fn pel_hann_q15(symmetry: u64, out: *mut u8, bytes: usize) -> Report;
        pub unsafe fn pel_blackman_harris_f32(symmetry: u64, out: *mut u8, bytes: usize) -> Report;
        pub unsafe fn pel_blackman_harris_q15(symmetry: u64, out: *mut u8, bytes: usize) -> Report;
        pub unsafe fn pel_kaiser_f32(
            beta: f64,
            symmetry: u64,
            out: *mut u8,
            bytes: usize,
        ) -> Report;
        pub unsafe fn pel_kaiser_q15(
            beta: f64,
            symmetry: u64,
            out: *mut u8,
            bytes: usize,
        ) -> Report;
        pub unsafe fn pel_window_gain(source: *const u8, source_bytes: usize) -> GainReport;
        pub unsafe fn pel_read_ticket(source: *const u8, source_bytes: usize) -> Reading;
        pub unsafe fn pel_check_card(source: *const u8, source_bytes: usize) -> Card;
        pub unsafe fn pel_write_ticket(ticket: Ticket, out: *mut u8, bytes: usize) -> Report;
        pub unsafe fn pel_design_ticket(ticket: Ticket, out: *mut u8, bytes: usize) -> Report;
    }
}

pub use border::{
    pel_bessel_i0, pel_ceil, pel_channelizer_lowpass, pel_channelizer_taps,
    pel_channelizer_taps_per_branch, pel_cos, pel_delay, pel_exp, pel_fabs, pel_floor,
    pel_gaussian_new, pel_halfband_len, pel_halfband_new, pel_judge_ticket, pel_kaiser_beta,
    pel_kaiserord, pel_lowpass_cosines_new, pel_lowpass_new, pel_pow04, pel_q14_from_f64,
    pel_q15_from_f64, pel_q15_tap, pel_rrc_len, pel_rrc_new, pel_sin, pel_spec_lowpass,
    pel_spec_num_taps, pel_sqrt,
};

/// A function that fills a buffer: the C function with its pointer and length as one slice. Inlined, so that a
/// caller in another crate calls the C function itself.
macro_rules! filling {
    ($($(#[$doc:meta])* $name:ident($($argument:ident: $kind:ty),*) -> $answer:ty;)*) => {$(
        $(#[$doc])*
        #[inline]
        pub fn $name($($argument: $kind,)* out: &mut [u8]) -> $answer {
            // SAFETY: `out` is so many writable bytes that nobody else uses, at a pointer that isn't null.
            unsafe { border::$name($($argument,)* out.as_mut_ptr(), out.len()) }
        }
    )*};
}

filling! {
    /// The taps of a low-pass.
    pel_lowpass(cutoff: f64, rate: f64, window: u64, beta: f64) -> Report;
    /// The taps of a low-pass with a loaded window.
    pel_lowpass_cosines(cutoff: f64, rate: f64, window: Cosines) -> Report;
    /// The taps of a low-pass, and its record.
    pel_design_lowpass(cutoff: f64, rate: f64, window: u64, beta: f64) -> Tuned;
    /// The record with a new cutoff, given with its rate, and the taps.
    pel_design_new_cutoff(design: Design, cutoff: f64, rate: f64) -> Tuned;
    /// The record with a new beta, and the taps.
    pel_design_new_beta(design: Design, beta: f64) -> Tuned;
    /// The taps of a specification's low-pass.
    pel_spec_design(cutoff: f64, transition: f64, attenuation: f64, rate: f64, max_taps: u64) -> Report;
    /// The taps of a half-band filter.
    pel_halfband(beta: f64) -> Report;
    /// The taps of a Gaussian pulse.
    pel_gaussian(bt: f64, samples: u64, span: u64) -> Report;
    /// The taps of a root-raised-cosine pulse.
    pel_rrc(rolloff: f64, samples: u64, span: u64) -> Report;
    /// The taps of a channelizer's prototype.
    pel_channelizer_prototype(
        channels: u64, branch: u64, passband: f64, stopband: f64, attenuation: f64
    ) -> Report;
    /// One second-order section.
    pel_biquad_coefs(response: u64, centre: f64, q: f64, rate: f64) -> Report;
    /// The sections of a Butterworth filter.
    pel_butterworth_sos(response: u64, order: u64, cutoff: f64, rate: f64) -> Report;
    /// First-order pre-emphasis.
    pel_preemphasis_coefs(tau: f64, rate: f64) -> Report;
    /// Hann's window as floats.
    pel_hann_f32(symmetry: u64) -> Report;
    /// Hann's window as Q15 numbers.
    pel_hann_q15(symmetry: u64) -> Report;
    /// Blackman and Harris's window as floats.
    pel_blackman_harris_f32(symmetry: u64) -> Report;
    /// Blackman and Harris's window as Q15 numbers.
    pel_blackman_harris_q15(symmetry: u64) -> Report;
    /// Kaiser's window as floats.
    pel_kaiser_f32(beta: f64, symmetry: u64) -> Report;
    /// Kaiser's window as Q15 numbers.
    pel_kaiser_q15(beta: f64, symmetry: u64) -> Report;
    /// A ticket as a record of a card.
    pel_write_ticket(ticket: Ticket) -> Report;
    /// The taps of a ticket.
    pel_design_ticket(ticket: Ticket) -> Report;
}

/// A function that converts a source into a buffer: each pointer and its length as one slice.
macro_rules! converting {
    ($($(#[$doc:meta])* $name:ident;)*) => {$(
        $(#[$doc])*
        #[inline]
        pub fn $name(source: &[u8], out: &mut [u8]) -> Report {
            // SAFETY: each slice is so many bytes at a pointer that isn't null; `out` is writable, nobody
            // else uses it, and the source doesn't overlap it.
            unsafe { border::$name(source.as_ptr(), source.len(), out.as_mut_ptr(), out.len()) }
        }
    )*};
}

converting! {
    /// Coefficients as Q15 numbers.
    pel_to_q15;
    /// Sections as Q14 numbers.
    pel_to_q14;
    /// Coefficients as floats.
    pel_to_f32;
    /// Sections as floats.
    pel_to_f32_sos;
}

/// A cosine window of the coefficients in a source.
#[inline]
pub fn pel_load_cosines(source: &[u8]) -> Loaded {
    // SAFETY: the source is so many bytes at a pointer that isn't null.
    unsafe { border::pel_load_cosines(source.as_ptr(), source.len()) }
}

/// The gain and the bandwidth of a window of floats.
#[inline]
pub fn pel_window_gain(source: &[u8]) -> GainReport {
    // SAFETY: the source is so many bytes at a pointer that isn't null.
    unsafe { border::pel_window_gain(source.as_ptr(), source.len()) }
}

/// The ticket that a source begins with.
#[inline]
pub fn pel_read_ticket(source: &[u8]) -> Reading {
    // SAFETY: the source is so many bytes at a pointer that isn't null.
    unsafe { border::pel_read_ticket(source.as_ptr(), source.len()) }
}

/// How far a card can be read.
#[inline]
pub fn pel_check_card(source: &[u8]) -> Card {
    // SAFETY: the source is so many bytes at a pointer that isn't null.
    unsafe { border::pel_check_card(source.as_ptr(), source.len()) }
}

/// A number that is its bytes: no padding, and every pattern is a value.
///
/// # Safety
///
/// The implementing type must be such a number.
pub unsafe trait Plain: Copy {}

// SAFETY: floats and whole numbers have no padding, and each of their patterns is a value.
unsafe impl Plain for f64 {}
// SAFETY: as above.
unsafe impl Plain for f32 {}
// SAFETY: as above.
unsafe impl Plain for i16 {}

/// Numbers as the bytes they are, little-endian on every target that this crate builds for.
pub fn bytes<T: Plain>(numbers: &[T]) -> &[u8] {
    // SAFETY: the same memory for the same time; bytes have no alignment, and there is no padding.
    unsafe { slice::from_raw_parts(numbers.as_ptr().cast(), size_of_val(numbers)) }
}

/// The same, to be written.
pub fn bytes_mut<T: Plain>(numbers: &mut [T]) -> &mut [u8] {
    // SAFETY: as in `bytes`; it is lent for as long as the numbers are, and whatever is written is a value.
    unsafe { slice::from_raw_parts_mut(numbers.as_mut_ptr().cast(), size_of_val(numbers)) }
}

//! The exports as the C header has them: codes as numbers, buffers as bytes, answers as reports.
//!
//! Each has its name from `include/peldozkar.h`, which says what it answers, and a C pointer and its length
//! are one slice of bytes here, at any alignment. So all of them are safe to call. The functions of the
//! crate's root are made of these and are meant for everyday use; these serve where bytes are at hand, such
//! as a buffer that isn't aligned, or where the report itself is wanted.
//!
//! ```
//! use peldozkar::raw;
//!
//! let mut bytes = [0; 9];
//! let report = raw::pel_lowpass(0.25, 1.0, raw::HANN, 0.0, &mut bytes[1..]);
//! assert_eq!((report.number, report.count, report.value), (raw::ACCEPTED, 1, 0.5));
//! assert_eq!(bytes[1..], 1.0_f64.to_le_bytes());
//!
//! // Nine bytes aren't whole taps.
//! let report = raw::pel_lowpass(0.25, 1.0, raw::HANN, 0.0, &mut bytes);
//! assert_eq!((report.number, report.carries), (raw::BAD_LENGTH, raw::LENGTH));
//! assert_eq!((report.expected, report.given), (8, 9));
//! ```

pub use crate::sys::{
    pel_bessel_i0, pel_biquad_coefs, pel_blackman_harris_f32, pel_blackman_harris_q15,
    pel_butterworth_sos, pel_ceil, pel_channelizer_lowpass, pel_channelizer_prototype,
    pel_channelizer_taps, pel_channelizer_taps_per_branch, pel_check_card, pel_cos, pel_delay,
    pel_design_lowpass, pel_design_new_beta, pel_design_new_cutoff, pel_design_ticket, pel_exp,
    pel_fabs, pel_floor, pel_gaussian, pel_gaussian_new, pel_halfband, pel_halfband_len,
    pel_halfband_new, pel_hann_f32, pel_hann_q15, pel_judge_ticket, pel_kaiser_beta,
    pel_kaiser_f32, pel_kaiser_q15, pel_kaiserord, pel_load_cosines, pel_lowpass,
    pel_lowpass_cosines, pel_lowpass_cosines_new, pel_lowpass_new, pel_pow04,
    pel_preemphasis_coefs, pel_q14_from_f64, pel_q15_from_f64, pel_q15_tap, pel_read_ticket,
    pel_rrc, pel_rrc_len, pel_rrc_new, pel_sin, pel_spec_design, pel_spec_lowpass,
    pel_spec_num_taps, pel_sqrt, pel_to_f32, pel_to_f32_sos, pel_to_q14, pel_to_q15,
    pel_window_gain, pel_write_ticket,
};

/// `number`: the ticket is accepted. Every other number is a refusal, those included that are not named here: later
/// versions add numbers between these and above them.
pub const ACCEPTED: u32 = 0;
/// `number`: the rate.
pub const BAD_RATE: u32 = 1;
/// `number`: the cutoff, the centre or a band edge.
pub const BAD_FREQUENCY: u32 = 2;
/// `number`: the transition, or a length past 2^24 taps.
pub const BAD_TRANSITION: u32 = 3;
/// `number`: the attenuation or beta.
pub const BAD_ATTENUATION: u32 = 4;
/// `number`: the bandwidth bt, the roll-off, the quality q or the time constant.
pub const BAD_SHAPE: u32 = 5;
/// `number`: a count.
pub const BAD_COUNT: u32 = 6;
/// `number`: an unknown code, or a response that a Butterworth filter hasn't.
pub const BAD_CODE: u32 = 7;
/// `number`: the buffer's length.
pub const BAD_LENGTH: u32 = 8;
/// `number`: `max_taps` is below the number of taps needed.
pub const TOO_MANY_TAPS: u32 = 9;
/// `number`: the sum that the taps are divided by is 0 or not finite.
pub const BAD_SUM: u32 = 10;
/// `number`: an element that Q15 or Q14 can't take.
pub const BAD_ELEMENT: u32 = 11;
/// `number`: the bytes end inside a record of a card.
pub const CUT_SHORT: u32 = 12;
/// `number`: a kind of ticket that isn't 1 to 6.
pub const UNKNOWN_KIND: u32 = 13;
/// `number`: the length of a card's record isn't its kind's.
pub const BAD_RECORD_LENGTH: u32 = 14;
/// `number`: a Bessel series of Kaiser's window doesn't settle; a smaller beta is needed.
pub const NOT_SETTLED: u32 = 16;
/// `number`: how many coefficients, not 1 to 5.
pub const BAD_COEFFICIENT_COUNT: u32 = 17;
/// `number`: a coefficient that isn't finite or whose size is above 1.
pub const BAD_COEFFICIENT: u32 = 18;
/// `number`: the exact sum of the coefficients is further than 2^-40 from 1.
pub const BAD_COEFFICIENT_SUM: u32 = 19;

/// `carries`: nothing.
pub const NOTHING: u32 = 0;
/// `carries`: `smallest`, `largest` and `offered`.
pub const RANGE: u32 = 1;
/// `carries`: `expected` and `given`.
pub const LENGTH: u32 = 2;
/// `carries`: `expected` and `given`, and the same as a range.
pub const CAP: u32 = 3;
/// `carries`: `index`, and a range.
pub const ELEMENT: u32 = 4;

/// The code of Hann's window.
pub const HANN: u64 = 0;
/// The code of Hamming's window.
pub const HAMMING: u64 = 1;
/// The code of Blackman's window.
pub const BLACKMAN: u64 = 2;
/// The code of Kaiser's window.
pub const KAISER: u64 = 3;

/// The code of a low-pass section.
pub const LOWPASS: u64 = 0;
/// The code of a high-pass section.
pub const HIGHPASS: u64 = 1;
/// The code of a band-pass section.
pub const BANDPASS: u64 = 2;
/// The code of a notch.
pub const NOTCH: u64 = 3;

/// The code of a periodic window.
pub const PERIODIC: u64 = 0;
/// The code of a symmetric window.
pub const SYMMETRIC: u64 = 1;

/// The kind of a low-pass's ticket: cutoff, rate, window, beta, count.
pub const TICKET_LOWPASS: u64 = 1;
/// The kind of a specification's: cutoff, transition, attenuation, rate, `max_taps`.
pub const TICKET_SPEC: u64 = 2;
/// The kind of a half-band's: beta, count.
pub const TICKET_HALFBAND: u64 = 3;
/// The kind of a Gaussian pulse's: bt, samples, span.
pub const TICKET_GAUSSIAN: u64 = 4;
/// The kind of a root-raised cosine's: rolloff, samples, span.
pub const TICKET_RRC: u64 = 5;
/// The kind of a channelizer's: channels, branch, passband, stopband, attenuation.
pub const TICKET_CHANNELIZER: u64 = 6;

/// Bytes that have room for a record of any kind.
pub const LONGEST_RECORD: usize = 46;

/// What a designer answers: `pel_report`. A field that doesn't apply is 0.
#[repr(C)]
#[derive(Clone, Copy, Debug, Default, PartialEq)]
pub struct Report {
    /// [`ACCEPTED`] where the ticket is accepted, else the refusal's number.
    pub number: u32,
    /// Which of the next fields belong to the refusal: [`NOTHING`], [`RANGE`], [`LENGTH`], [`CAP`] or
    /// [`ELEMENT`].
    pub carries: u32,
    /// The lower limit.
    pub smallest: f64,
    /// The upper limit.
    pub largest: f64,
    /// The value that was offered.
    pub offered: f64,
    /// The length expected, or the taps needed.
    pub expected: u64,
    /// The length given, or the taps allowed.
    pub given: u64,
    /// The index of the element.
    pub index: u64,
    /// Accepted, and of [`pel_bessel_i0`] with [`NOT_SETTLED`] too: the number of taps, terms, half samples, samples,
    /// elements, coefficients, tickets or bytes.
    pub count: u64,
    /// Accepted, and of [`pel_bessel_i0`] with [`NOT_SETTLED`] too: a divisor, a factor, a beta, a sum, or a Q15 or Q14
    /// number.
    pub value: f64,
}

/// The coefficients of a cosine window: `pel_cosines`. A design takes them as they are.
#[repr(C)]
#[derive(Clone, Copy, Debug, Default, PartialEq)]
pub struct Cosines {
    /// The constant.
    pub c0: f64,
    /// Of cos(x), which is taken away.
    pub c1: f64,
    /// Of cos(2x).
    pub c2: f64,
    /// Of cos(3x), which is taken away.
    pub c3: f64,
    /// Of cos(4x).
    pub c4: f64,
}

/// What loading a window answers: `pel_loaded`.
#[repr(C)]
#[derive(Clone, Copy, Debug, Default, PartialEq)]
pub struct Loaded {
    /// The window; zeros after a refusal.
    pub window: Cosines,
    /// The report.
    pub report: Report,
}

/// The record of a low-pass whose knob is turned: `pel_design`. It is kept from one turn to the next.
#[repr(C)]
#[derive(Clone, Copy, Debug, Default, PartialEq)]
pub struct Design {
    /// The number of taps.
    pub taps: u64,
    /// The cutoff over the rate.
    pub fraction: f64,
    /// The code of the window.
    pub window: u64,
    /// Kaiser's beta, 0 for the other windows.
    pub beta: f64,
    /// What the window is divided by: the series at beta, 1 for the other windows; of one tap, whose window is 1, the
    /// sum that the series at beta reached, settled or not.
    pub series: f64,
    /// What the taps are divided by.
    pub sum: f64,
}

/// What a turn of the knob answers: `pel_tuned`.
#[repr(C)]
#[derive(Clone, Copy, Debug, Default, PartialEq)]
pub struct Tuned {
    /// The record to keep from now on.
    pub design: Design,
    /// The report.
    pub report: Report,
}

/// What a window does: `pel_gain_report`. A field that doesn't apply is 0.
#[repr(C)]
#[derive(Clone, Copy, Debug, Default, PartialEq)]
pub struct GainReport {
    /// [`ACCEPTED`], or [`BAD_LENGTH`] where the source isn't whole samples.
    pub number: u32,
    /// [`NOTHING`] or [`LENGTH`].
    pub carries: u32,
    /// The length expected, in bytes.
    pub expected: u64,
    /// The length given, in bytes.
    pub given: u64,
    /// The number of samples.
    pub count: u64,
    /// The mean of the samples.
    pub gain: f64,
    /// The noise-equivalent bandwidth in bins.
    pub bandwidth: f64,
}

/// A ticket of a card: `pel_ticket`. Two that hold a NaN are equal where their bits are.
#[repr(C)]
#[derive(Clone, Copy, Debug, Default, PartialEq, Eq, Hash)]
pub struct Ticket {
    /// [`TICKET_LOWPASS`] and so on.
    pub kind: u64,
    /// The fields of the record in their order, floats as their bits. What the kind hasn't is 0, and so is the beta of
    /// a window other than [`KAISER`]; nobody looks at these.
    pub fields: [u64; 5],
}

/// What reading a ticket answers: `pel_reading`.
#[repr(C)]
#[derive(Clone, Copy, Debug, Default, PartialEq)]
pub struct Reading {
    /// The ticket; zeros after a refusal.
    pub ticket: Ticket,
    /// The report, whose count is how many bytes the record takes.
    pub report: Report,
}

/// What checking a card answers: `pel_card`.
#[repr(C)]
#[derive(Clone, Copy, Debug, Default, PartialEq)]
pub struct Card {
    /// How many tickets were read.
    pub tickets: u64,
    /// The byte at which reading ended.
    pub place: u64,
    /// The report, whose count is the number of tickets.
    pub report: Report,
}

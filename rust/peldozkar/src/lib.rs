//! Filter designs whose every answer is proved: FIR and IIR coefficients, conversions to Q15, Q14 and f32,
//! and windows. Safe Rust over `libpeldozkar.a`, without `std`, without allocation, without dependencies.
//!
//! A first filter: 31 taps, a quarter of the band.
//!
//! ```
//! # fn main() -> Result<(), peldozkar::Error> {
//! use peldozkar::{Window, lowpass};
//!
//! let mut taps = [0.0; 31];
//! let design = lowpass(1000.0, 8000.0, Window::Kaiser(5.65326), &mut taps)?;
//! assert_eq!(design.taps, 31);
//! assert!((taps.iter().sum::<f64>() - 1.0).abs() < 1e-14);
//! # Ok(())
//! # }
//! ```
//!
//! Or by what it has to do, with Kaiser's formulas finding the number of taps: [`Spec`]. Where a knob is turned, for
//! the cutoff or for beta, [`Lowpass`] keeps the record of the design. A window of a customer's own coefficients is
//! loaded once: [`Cosines`]. Tickets that come on a card are read by [`read_ticket`] or [`Card`], and designed by
//! [`Ticket::design`]; [`Ticket::write`] writes one as a record of the card again.
//!
//! # Filled or refused
//!
//! A buffer is filled completely, with the bits that every other reader computes, or the call is refused with
//! an [`Error`] and the buffer is as it came. Only a conversion that stops at an element that its format can't
//! take keeps the numbers before it. Every number can be offered, NaN, infinities and impossible counts
//! included: nothing here panics.
//!
//! A refusal has a number. This crate knows 1 to 14, and 16 to 19; later versions add others, between these and
//! above, so [`Reason`], [`Carried`], [`Window`], [`Response`], [`Ticket`], [`TicketWindow`] and [`Figures`] are
//! `#[non_exhaustive]`.
//!
//! # What a caller owes
//!
//! The library is for x86-64 today. It needs the floating-point environment that Rust itself asks for, and that C code
//! owes which calls Rust: rounding to nearest, no flush-to-zero and no denormals-are-zero, exceptions masked. In
//! another one nothing said here holds: where rounding is toward zero, two Hann taps are accepted that must be refused;
//! where it is upward, 146 of the 147 taps of a specification are others. Status flags may be raised: a low-pass of one
//! tap raises "invalid".
//!
//! On the stack the exports behind [`lowpass`], [`Lowpass`], [`Spec::design`], [`halfband`], [`gaussian`],
//! [`channelizer_prototype`] and [`Ticket::design`] take 10,272 bytes at most, the others under 1,920; the repository's
//! `docs/FUNCTIONS.md` has the bytes of each.
//!
//! # What is proved, and what isn't
//!
//! Proved, for every input: the exports of the library give the values of their definitions, write what they
//! say and nothing else, and return. The C header, `include/peldozkar.h`, says for each of them what it
//! answers and in which order it refuses; the repository's `docs/FUNCTIONS.md` says where the definitions are.
//!
//! Not proved: this crate. It lends slices to the exports as bytes, gives their codes names and their reports
//! types, and computes nothing of its own. The comparison of the library with the Rust that it is a port of
//! calls the exports through [`raw`].
//!
//! # Building
//!
//! The library is looked for in the folder that the variable `PEL_LIB_DIR` names (an absolute path); else
//! where pkg-config says, if it knows `peldozkar`; else in the repository's own `target/lib`, where `make lib`
//! writes it. For another machine than the one that builds, say `PEL_LIB_DIR`. The target must be
//! little-endian, as the exports' buffers are; this crate doesn't compile for others.

#![no_std]
#![deny(missing_docs, unsafe_code, unsafe_op_in_unsafe_fn)]

#[cfg(not(target_endian = "little"))]
compile_error!(
    "peldozkar lends numbers to its library as little-endian bytes: the target must be little-endian"
);

/// The examples of the README, which are tests too.
#[cfg(doctest)]
#[doc = include_str!("../README.md")]
struct Readme;

mod card;
mod channelizer;
mod cosines;
mod elementary;
mod error;
mod formats;
mod halfband;
mod kaiser;
mod lowpass;
mod pulses;
pub mod raw;
mod retune;
mod sections;
mod sys;
mod windows;

pub use card::{Bits, Broken, Card, Figures, Ticket, TicketWindow, check_card, read_ticket};
pub use channelizer::{
    channelizer_lowpass, channelizer_prototype, channelizer_taps, channelizer_taps_per_branch,
};
pub use cosines::Cosines;
pub use elementary::{ceil, cos, exp, fabs, floor, pow04, sin, sqrt};
pub use error::{Carried, Error, Reason};
pub use formats::{q14_from_f64, q15_from_f64, q15_tap, to_f32, to_f32_sos, to_q14, to_q15};
pub use halfband::{halfband, halfband_len, halfband_new};
pub use kaiser::{HalfSamples, Series, bessel_i0, delay, kaiser_beta, kaiserord};
pub use lowpass::{Design, Spec, Window, lowpass, lowpass_new};
pub use pulses::{Rrc, gaussian, gaussian_new, rrc, rrc_len, rrc_new};
pub use retune::Lowpass;
pub use sections::{Response, biquad_coefs, butterworth_sos, preemphasis_coefs};
pub use windows::{Gain, Sample, Symmetry, blackman_harris, hann, kaiser, window_gain};

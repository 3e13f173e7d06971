//! Both sides' answers to a ticket: the Rust files' as reports and taps, and the port's.

use sdrk_blocks::access::Lowpass;
use sdrk_blocks::{Error, Result};

use crate::run::port;
use crate::run::report::Report;
use crate::run::rust_lent::{elements, left};
use crate::run::tickets::Ticket;
use crate::{
    channelizer, formats, gaussian, halfband, kaiser, lowpass, rrc, sections, spec, windows,
};

/// A report and what is written, in one format: the taps or coefficients of an accepted design,
/// the samples of a window, or the numbers of a conversion, also of one that stopped.
#[derive(Default)]
pub struct Answer {
    pub report: Report,
    pub taps: Vec<f64>,
    /// Q15 or Q14 numbers.
    pub fixed: Vec<i16>,
    pub singles: Vec<f32>,
}

impl From<Report> for Answer {
    fn from(report: Report) -> Self {
        Self {
            report,
            ..Self::default()
        }
    }
}

/// The refusal's number for what the Rust names in its error.
fn number(name: &str) -> u32 {
    match name {
        "fs_hz" => 1,
        "cutoff_hz" | "f0_hz" | "passband" | "stopband" => 2,
        "transition_hz" => 3,
        "attenuation_db" | "beta" => 4,
        "bt" | "rolloff" | "q" | "tau_s" => 5,
        "num_taps" | "taps" | "order" | "span" | "sps" | "samples_per_symbol" | "channels"
        | "taps_per_branch" => 6,
        "response" => 7,
        "window" => 10,
        _ => panic!("an error of the Rust that has no number: {name}"),
    }
}

/// The report of an error of the Rust.
pub fn refusal(error: Error) -> Report {
    match error {
        Error::InvalidParameter { name, .. } => Report::plain(number(name)),
        // Both counts are at most 2^24 + 1, so they come back whole from the error's f64.
        Error::OutOfRange {
            name: "max_taps",
            min,
            max,
            got,
        } => Report::cap(min as u64, max, got as u64),
        Error::OutOfRange {
            name: "tap" | "coefficient",
            min,
            max,
            got,
        } => Report::element(0, min, max, got),
        Error::OutOfRange {
            name,
            min,
            max,
            got,
        } => Report::range(number(name), min, max, got),
        Error::Core(sdrk_core::Error::LengthMismatch { expected, got }) => {
            Report::length(expected as u64, got as u64)
        }
        Error::Core(_) => panic!("an error of the Rust that has no number: {error:?}"),
    }
}

/// The report of a count, or of the error in its place.
pub fn counted(answer: Result<usize>) -> Report {
    answer.map_or_else(refusal, |count| Report::accepted(count as u64, 0.0))
}

/// The report of a record, or of the error in its place.
pub fn recorded(answer: Result<Lowpass>) -> Report {
    answer.map_or_else(refusal, |lowpass| {
        Report::accepted(lowpass.count() as u64, lowpass.divisor())
    })
}

/// Why the Rust refused a ticket that it was lent a buffer for.
pub enum Refused {
    /// The buffer must be as it came.
    Left(Report),
    /// The Rust has written before it refused.
    Overwritten(Report),
}

impl From<Error> for Refused {
    fn from(error: Error) -> Self {
        Self::Left(refusal(error))
    }
}

/// Lends the Rust a buffer of `bytes` bytes full of random bits; the divisor is that of the record.
pub fn lent(
    bytes: u64,
    fill: impl FnOnce(&mut [f64]) -> core::result::Result<(), Refused>,
    record: impl FnOnce() -> Report,
) -> Answer {
    if !bytes.is_multiple_of(8) {
        return Report::length(bytes - bytes % 8, bytes).into();
    }
    let count = bytes / 8;
    let mut taps = elements(count);
    match fill(&mut taps) {
        Ok(()) => {
            let report = record();
            assert!(
                report.is_accepted() && report.count == count,
                "the Rust's record and buffer disagree"
            );
            Answer {
                report,
                taps,
                ..Answer::default()
            }
        }
        Err(Refused::Left(report)) => {
            assert!(left(&taps, 0), "the Rust wrote before a refusal");
            report.into()
        }
        Err(Refused::Overwritten(report)) => report.into(),
    }
}

/// The Rust side's answer. What isn't in the Rust (the border's codes and byte lengths, the number
/// of terms) is from the scope document, and the delay, odd orders and 16 from their requests.
pub fn rust(ticket: &Ticket) -> Answer {
    match *ticket {
        Ticket::BesselI0 { x } => kaiser::rust_series(x).into(),
        Ticket::KaiserBeta { attenuation } => kaiser::beta(attenuation).into(),
        Ticket::Kaiserord {
            ripple,
            transition,
            rate,
        } => kaiser::order(ripple, transition, rate).into(),
        Ticket::HalfbandLen {
            transition,
            attenuation,
            rate,
        } => kaiser::halfband_length(transition, attenuation, rate).into(),
        Ticket::Delay { taps } => kaiser::delay(taps).into(),
        Ticket::LowpassNew { band, taps } => lowpass::record(&band, taps).into(),
        Ticket::Lowpass { band, bytes } => lowpass::filled(&band, bytes),
        Ticket::SpecNumTaps { spec } => spec::count(&spec).into(),
        Ticket::SpecLowpass { spec } => spec::record(&spec).into(),
        Ticket::SpecDesign { spec, bytes } => spec::filled(&spec, bytes),
        Ticket::HalfbandNew { beta, taps } => halfband::record(beta, taps).into(),
        Ticket::Halfband { beta, bytes } => halfband::filled(beta, bytes),
        Ticket::GaussianNew { pulse } => gaussian::record(&pulse).into(),
        Ticket::Gaussian { pulse, bytes } => gaussian::filled(&pulse, bytes),
        Ticket::ChannelizerTaps { channels } => channelizer::count(&channels).into(),
        Ticket::ChannelizerTapsPerBranch { channels } => {
            channelizer::count_per_branch(&channels).into()
        }
        Ticket::ChannelizerLowpass { channels, branch } => {
            channelizer::record(&channels, branch).into()
        }
        Ticket::ChannelizerPrototype {
            channels,
            branch,
            bytes,
        } => channelizer::filled(&channels, branch, bytes),
        Ticket::Q15FromF64 { x } => formats::q15::number(x).into(),
        Ticket::Q15Tap { tap } => formats::q15::tap(tap).into(),
        Ticket::ToQ15 { ref source, bytes } => formats::q15::rust(source, bytes),
        Ticket::RrcLen { samples, span } => rrc::count(samples, span).into(),
        Ticket::RrcNew { cosine } => rrc::record(&cosine).into(),
        Ticket::Rrc { cosine, bytes } => rrc::filled(&cosine, bytes),
        Ticket::BiquadCoefs { section, bytes } => sections::biquad(&section, bytes),
        Ticket::ButterworthSos { cascade, bytes } => sections::butterworth(&cascade, bytes),
        Ticket::PreemphasisCoefs { tau, rate, bytes } => sections::preemphasis(tau, rate, bytes),
        Ticket::Q14FromF64 { x } => formats::q14::number(x).into(),
        Ticket::ToQ14 { ref source, bytes } => formats::q14::sections(source, bytes),
        Ticket::ToF32 { ref source, bytes } => formats::singles::rust(source, bytes, 1),
        Ticket::ToF32Sos { ref source, bytes } => formats::singles::rust(source, bytes, 5),
        Ticket::Window { window, bytes } => windows::rust(&window, bytes),
        Ticket::WindowGain { ref samples } => windows::gain::rust(samples).into(),
    }
}

/// Whether the answer is a request's definition: the Rust has another, or none. It has no 16.
pub fn is_requested(ticket: &Ticket, report: &Report) -> bool {
    matches!(ticket, Ticket::Delay { .. }) || sections::odd::answers(ticket) || report.number == 16
}

/// The port's answer; the buffer has the length that the ticket says.
pub fn port(ticket: &Ticket, buffer: &mut [u8]) -> Report {
    match *ticket {
        Ticket::BesselI0 { x } => port::bessel_i0(x),
        Ticket::KaiserBeta { attenuation } => Report::accepted(0, port::kaiser_beta(attenuation)),
        Ticket::Kaiserord {
            ripple,
            transition,
            rate,
        } => port::kaiserord(ripple, transition, rate),
        Ticket::HalfbandLen {
            transition,
            attenuation,
            rate,
        } => port::halfband_len(transition, attenuation, rate),
        Ticket::Delay { taps } => port::delay(taps),
        Ticket::LowpassNew { band, taps } => port::lowpass_new(&band, taps),
        Ticket::Lowpass { band, .. } => port::lowpass(&band, buffer),
        Ticket::SpecNumTaps { spec } => port::spec_num_taps(&spec),
        Ticket::SpecLowpass { spec } => port::spec_lowpass(&spec),
        Ticket::SpecDesign { spec, .. } => port::spec_design(&spec, buffer),
        Ticket::HalfbandNew { beta, taps } => port::halfband_new(beta, taps),
        Ticket::Halfband { beta, .. } => port::halfband(beta, buffer),
        Ticket::GaussianNew { pulse } => port::gaussian_new(&pulse),
        Ticket::Gaussian { pulse, .. } => port::gaussian(&pulse, buffer),
        Ticket::ChannelizerTaps { channels } => port::channelizer_taps(&channels),
        Ticket::ChannelizerTapsPerBranch { channels } => {
            port::channelizer_taps_per_branch(&channels)
        }
        Ticket::ChannelizerLowpass { channels, branch } => {
            port::channelizer_lowpass(&channels, branch)
        }
        Ticket::ChannelizerPrototype {
            channels, branch, ..
        } => port::channelizer_prototype(&channels, branch, buffer),
        Ticket::Q15FromF64 { x } => Report::accepted(0, f64::from(port::q15_from_f64(x))),
        Ticket::Q15Tap { tap } => port::q15_tap(tap),
        Ticket::ToQ15 { ref source, .. } => formats::port(source, buffer, port::to_q15),
        Ticket::RrcLen { samples, span } => port::rrc_len(samples, span),
        Ticket::RrcNew { cosine } => port::rrc_new(&cosine),
        Ticket::Rrc { cosine, .. } => port::rrc(&cosine, buffer),
        Ticket::BiquadCoefs { section, .. } => port::biquad_coefs(&section, buffer),
        Ticket::ButterworthSos { cascade, .. } => port::butterworth_sos(&cascade, buffer),
        Ticket::PreemphasisCoefs { tau, rate, .. } => port::preemphasis_coefs(tau, rate, buffer),
        Ticket::Q14FromF64 { x } => port::q14_from_f64(x),
        Ticket::ToQ14 { ref source, .. } => formats::port(source, buffer, port::to_q14),
        Ticket::ToF32 { ref source, .. } => formats::port(source, buffer, port::to_f32),
        Ticket::ToF32Sos { ref source, .. } => formats::port(source, buffer, port::to_f32_sos),
        Ticket::Window { window, .. } => port::window(&window, buffer),
        Ticket::WindowGain { ref samples } => windows::gain::port(samples),
    }
}

//! The port's side: the C functions of its static library, through the raw layer of the crate peldozkar, which
//! takes bytes at any alignment.

use peldozkar::raw::{self, Design, GainReport};

use crate::card::{Checked, Reading, Slip};
use crate::retune::Tuned;
use crate::run::report::Report;
use crate::run::tickets::{
    Band, Cascade, Channels, Cosine, Form, Format, Pulse, Section, Spec, Window,
};

pub use peldozkar::{ceil, cos, exp, fabs, floor, kaiser_beta, pow04, q15_from_f64, sin, sqrt};

pub fn bessel_i0(x: f64) -> Report {
    raw::pel_bessel_i0(x).into()
}

pub fn kaiserord(ripple: f64, transition: f64, rate: f64) -> Report {
    raw::pel_kaiserord(ripple, transition, rate).into()
}

pub fn halfband_len(transition: f64, attenuation: f64, rate: f64) -> Report {
    raw::pel_halfband_len(transition, attenuation, rate).into()
}

pub fn delay(taps: u64) -> Report {
    raw::pel_delay(taps).into()
}

pub fn lowpass_new(band: &Band, taps: u64) -> Report {
    raw::pel_lowpass_new(band.cutoff, band.rate, band.window, band.beta, taps).into()
}

pub fn lowpass(band: &Band, out: &mut [u8]) -> Report {
    raw::pel_lowpass(band.cutoff, band.rate, band.window, band.beta, out).into()
}

pub fn design_lowpass(band: &Band, out: &mut [u8]) -> Tuned {
    raw::pel_design_lowpass(band.cutoff, band.rate, band.window, band.beta, out).into()
}

pub fn design_new_cutoff(design: Design, cutoff: f64, rate: f64, out: &mut [u8]) -> Tuned {
    raw::pel_design_new_cutoff(design, cutoff, rate, out).into()
}

pub fn design_new_beta(design: Design, beta: f64, out: &mut [u8]) -> Tuned {
    raw::pel_design_new_beta(design, beta, out).into()
}

pub fn spec_num_taps(spec: &Spec) -> Report {
    raw::pel_spec_num_taps(
        spec.cutoff,
        spec.transition,
        spec.attenuation,
        spec.rate,
        spec.max_taps,
    )
    .into()
}

pub fn spec_lowpass(spec: &Spec) -> Report {
    raw::pel_spec_lowpass(
        spec.cutoff,
        spec.transition,
        spec.attenuation,
        spec.rate,
        spec.max_taps,
    )
    .into()
}

pub fn spec_design(spec: &Spec, out: &mut [u8]) -> Report {
    raw::pel_spec_design(
        spec.cutoff,
        spec.transition,
        spec.attenuation,
        spec.rate,
        spec.max_taps,
        out,
    )
    .into()
}

pub fn halfband_new(beta: f64, taps: u64) -> Report {
    raw::pel_halfband_new(beta, taps).into()
}

pub fn halfband(beta: f64, out: &mut [u8]) -> Report {
    raw::pel_halfband(beta, out).into()
}

pub fn gaussian_new(pulse: &Pulse) -> Report {
    raw::pel_gaussian_new(pulse.bt, pulse.samples, pulse.span).into()
}

pub fn gaussian(pulse: &Pulse, out: &mut [u8]) -> Report {
    raw::pel_gaussian(pulse.bt, pulse.samples, pulse.span, out).into()
}

pub fn channelizer_taps(asked: &Channels) -> Report {
    raw::pel_channelizer_taps(
        asked.channels,
        asked.passband,
        asked.stopband,
        asked.attenuation,
    )
    .into()
}

pub fn channelizer_taps_per_branch(asked: &Channels) -> Report {
    raw::pel_channelizer_taps_per_branch(
        asked.channels,
        asked.passband,
        asked.stopband,
        asked.attenuation,
    )
    .into()
}

pub fn channelizer_lowpass(asked: &Channels, branch: u64) -> Report {
    raw::pel_channelizer_lowpass(
        asked.channels,
        branch,
        asked.passband,
        asked.stopband,
        asked.attenuation,
    )
    .into()
}

pub fn channelizer_prototype(asked: &Channels, branch: u64, out: &mut [u8]) -> Report {
    raw::pel_channelizer_prototype(
        asked.channels,
        branch,
        asked.passband,
        asked.stopband,
        asked.attenuation,
        out,
    )
    .into()
}

pub fn q15_tap(tap: f64) -> Report {
    raw::pel_q15_tap(tap).into()
}

pub fn to_q15(source: &[u8], out: &mut [u8]) -> Report {
    raw::pel_to_q15(source, out).into()
}

pub fn rrc_len(samples: u64, span: u64) -> Report {
    raw::pel_rrc_len(samples, span).into()
}

pub fn rrc_new(cosine: &Cosine) -> Report {
    raw::pel_rrc_new(cosine.rolloff, cosine.samples, cosine.span).into()
}

pub fn rrc(cosine: &Cosine, out: &mut [u8]) -> Report {
    raw::pel_rrc(cosine.rolloff, cosine.samples, cosine.span, out).into()
}

pub fn biquad_coefs(section: &Section, out: &mut [u8]) -> Report {
    raw::pel_biquad_coefs(
        section.response,
        section.centre,
        section.q,
        section.rate,
        out,
    )
    .into()
}

pub fn butterworth_sos(cascade: &Cascade, out: &mut [u8]) -> Report {
    raw::pel_butterworth_sos(
        cascade.response,
        cascade.order,
        cascade.cutoff,
        cascade.rate,
        out,
    )
    .into()
}

pub fn preemphasis_coefs(tau: f64, rate: f64, out: &mut [u8]) -> Report {
    raw::pel_preemphasis_coefs(tau, rate, out).into()
}

pub fn q14_from_f64(x: f64) -> Report {
    raw::pel_q14_from_f64(x).into()
}

pub fn to_q14(source: &[u8], out: &mut [u8]) -> Report {
    raw::pel_to_q14(source, out).into()
}

pub fn to_f32(source: &[u8], out: &mut [u8]) -> Report {
    raw::pel_to_f32(source, out).into()
}

pub fn to_f32_sos(source: &[u8], out: &mut [u8]) -> Report {
    raw::pel_to_f32_sos(source, out).into()
}

/// The window of a form and a format, each of which is a function of its own.
pub fn window(window: &Window, out: &mut [u8]) -> Report {
    let Window {
        form,
        format,
        symmetry,
    } = *window;
    match (form, format) {
        (Form::Hann, Format::F32) => raw::pel_hann_f32(symmetry, out),
        (Form::Hann, Format::Q15) => raw::pel_hann_q15(symmetry, out),
        (Form::BlackmanHarris, Format::F32) => raw::pel_blackman_harris_f32(symmetry, out),
        (Form::BlackmanHarris, Format::Q15) => raw::pel_blackman_harris_q15(symmetry, out),
        (Form::Kaiser { beta }, Format::F32) => raw::pel_kaiser_f32(beta, symmetry, out),
        (Form::Kaiser { beta }, Format::Q15) => raw::pel_kaiser_q15(beta, symmetry, out),
    }
    .into()
}

pub fn window_gain(source: &[u8]) -> GainReport {
    raw::pel_window_gain(source)
}

pub fn read_ticket(source: &[u8]) -> Reading {
    raw::pel_read_ticket(source).into()
}

pub fn check_card(source: &[u8]) -> Checked {
    raw::pel_check_card(source).into()
}

pub fn write_ticket(slip: &Slip, out: &mut [u8]) -> Report {
    raw::pel_write_ticket(*slip, out).into()
}

pub fn judge_ticket(slip: &Slip) -> Report {
    raw::pel_judge_ticket(*slip).into()
}

pub fn design_ticket(slip: &Slip, out: &mut [u8]) -> Report {
    raw::pel_design_ticket(*slip, out).into()
}

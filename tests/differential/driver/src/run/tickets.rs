//! The tickets that the designers are asked with, and the kinds they come in.

pub use crate::run::asked::{
    Band, Cascade, Channels, Cosine, Form, Format, Pulse, Samples, Section, Source, Spec, Window,
};
use crate::run::report::{bits, single_bits};

/// The largest count of `kaiserord`: 2^24 made odd.
pub const LARGEST_COUNT: u64 = (1 << 24) + 1;

/// One question to a designer, in the argument order of its C function.
#[derive(Clone, Debug)]
pub enum Ticket {
    BesselI0 {
        x: f64,
    },
    KaiserBeta {
        attenuation: f64,
    },
    Kaiserord {
        ripple: f64,
        transition: f64,
        rate: f64,
    },
    HalfbandLen {
        transition: f64,
        attenuation: f64,
        rate: f64,
    },
    Delay {
        taps: u64,
    },
    LowpassNew {
        band: Band,
        taps: u64,
    },
    Lowpass {
        band: Band,
        bytes: u64,
    },
    SpecNumTaps {
        spec: Spec,
    },
    SpecLowpass {
        spec: Spec,
    },
    SpecDesign {
        spec: Spec,
        bytes: u64,
    },
    HalfbandNew {
        beta: f64,
        taps: u64,
    },
    Halfband {
        beta: f64,
        bytes: u64,
    },
    GaussianNew {
        pulse: Pulse,
    },
    Gaussian {
        pulse: Pulse,
        bytes: u64,
    },
    ChannelizerTaps {
        channels: Channels,
    },
    ChannelizerTapsPerBranch {
        channels: Channels,
    },
    ChannelizerLowpass {
        channels: Channels,
        branch: u64,
    },
    ChannelizerPrototype {
        channels: Channels,
        branch: u64,
        bytes: u64,
    },
    Q15FromF64 {
        x: f64,
    },
    Q15Tap {
        tap: f64,
    },
    ToQ15 {
        source: Source,
        bytes: u64,
    },
    RrcLen {
        samples: u64,
        span: u64,
    },
    RrcNew {
        cosine: Cosine,
    },
    Rrc {
        cosine: Cosine,
        bytes: u64,
    },
    BiquadCoefs {
        section: Section,
        bytes: u64,
    },
    ButterworthSos {
        cascade: Cascade,
        bytes: u64,
    },
    PreemphasisCoefs {
        tau: f64,
        rate: f64,
        bytes: u64,
    },
    Q14FromF64 {
        x: f64,
    },
    ToQ14 {
        source: Source,
        bytes: u64,
    },
    ToF32 {
        source: Source,
        bytes: u64,
    },
    ToF32Sos {
        source: Source,
        bytes: u64,
    },
    /// A window of any form and format, each of which is a function of its own.
    Window {
        window: Window,
        bytes: u64,
    },
    WindowGain {
        samples: Samples,
    },
}

impl Ticket {
    /// The arguments in their order, numbers by their bits, a buffer by its length in bytes. A
    /// source has its elements last, so that each argument before them has a fixed place.
    pub fn words(&self) -> Vec<u64> {
        let and = |mut words: Vec<u64>, last: u64| {
            words.push(last);
            words
        };
        match *self {
            Self::BesselI0 { x } | Self::Q15FromF64 { x } | Self::Q14FromF64 { x } => {
                vec![bits(x)]
            }
            Self::KaiserBeta { attenuation } => vec![bits(attenuation)],
            Self::Kaiserord {
                ripple,
                transition,
                rate,
            } => vec![bits(ripple), bits(transition), bits(rate)],
            Self::HalfbandLen {
                transition,
                attenuation,
                rate,
            } => vec![bits(transition), bits(attenuation), bits(rate)],
            Self::Delay { taps } => vec![taps],
            Self::LowpassNew { band, taps } => and(band.words(), taps),
            Self::Lowpass { band, bytes } => and(band.words(), bytes),
            Self::SpecNumTaps { spec } | Self::SpecLowpass { spec } => spec.words(),
            Self::SpecDesign { spec, bytes } => and(spec.words(), bytes),
            Self::HalfbandNew { beta, taps } => vec![bits(beta), taps],
            Self::Halfband { beta, bytes } => vec![bits(beta), bytes],
            Self::GaussianNew { pulse } => pulse.words(),
            Self::Gaussian { pulse, bytes } => and(pulse.words(), bytes),
            Self::ChannelizerTaps { channels } | Self::ChannelizerTapsPerBranch { channels } => {
                channels.words(None)
            }
            Self::ChannelizerLowpass { channels, branch } => channels.words(Some(branch)),
            Self::ChannelizerPrototype {
                channels,
                branch,
                bytes,
            } => and(channels.words(Some(branch)), bytes),
            Self::Q15Tap { tap } => vec![bits(tap)],
            Self::ToQ15 { ref source, bytes }
            | Self::ToQ14 { ref source, bytes }
            | Self::ToF32 { ref source, bytes }
            | Self::ToF32Sos { ref source, bytes } => {
                let mut words = vec![bytes, source.length()];
                words.extend(source.elements.iter().map(|&x| bits(x)));
                words
            }
            Self::RrcLen { samples, span } => vec![samples, span],
            Self::RrcNew { cosine } => cosine.words(),
            Self::Rrc { cosine, bytes } => and(cosine.words(), bytes),
            Self::BiquadCoefs { section, bytes } => and(section.words(), bytes),
            Self::ButterworthSos { cascade, bytes } => and(cascade.words(), bytes),
            Self::PreemphasisCoefs { tau, rate, bytes } => vec![bits(tau), bits(rate), bytes],
            Self::Window { window, bytes } => and(window.words(), bytes),
            Self::WindowGain { ref samples } => {
                let mut words = vec![samples.length()];
                words.extend(samples.elements.iter().map(|&x| single_bits(x)));
                words
            }
        }
    }

    /// What a low-pass is asked for.
    pub fn band(&self) -> Option<Band> {
        match *self {
            Self::LowpassNew { band, .. } | Self::Lowpass { band, .. } => Some(band),
            _ => None,
        }
    }

    /// What a spec is asked for.
    pub fn spec(&self) -> Option<Spec> {
        match *self {
            Self::SpecNumTaps { spec }
            | Self::SpecLowpass { spec }
            | Self::SpecDesign { spec, .. } => Some(spec),
            _ => None,
        }
    }

    /// What a half-band is asked for: the beta and the number of whole taps.
    pub fn halfband(&self) -> Option<(f64, u64)> {
        match *self {
            Self::HalfbandNew { beta, taps } => Some((beta, taps)),
            Self::Halfband { beta, bytes } => Some((beta, bytes / 8)),
            _ => None,
        }
    }

    /// What a Gaussian pulse is asked for.
    pub fn pulse(&self) -> Option<Pulse> {
        match *self {
            Self::GaussianNew { pulse } | Self::Gaussian { pulse, .. } => Some(pulse),
            _ => None,
        }
    }

    /// What a channelizer is asked for.
    pub fn channels(&self) -> Option<Channels> {
        match *self {
            Self::ChannelizerTaps { channels }
            | Self::ChannelizerTapsPerBranch { channels }
            | Self::ChannelizerLowpass { channels, .. }
            | Self::ChannelizerPrototype { channels, .. } => Some(channels),
            _ => None,
        }
    }

    /// The taps of a branch that a channelizer is asked for.
    pub fn branch(&self) -> Option<u64> {
        match *self {
            Self::ChannelizerLowpass { branch, .. } | Self::ChannelizerPrototype { branch, .. } => {
                Some(branch)
            }
            _ => None,
        }
    }

    /// What a conversion is given.
    pub fn source(&self) -> Option<&Source> {
        match self {
            Self::ToQ15 { source, .. }
            | Self::ToQ14 { source, .. }
            | Self::ToF32 { source, .. }
            | Self::ToF32Sos { source, .. } => Some(source),
            _ => None,
        }
    }

    /// What a root-raised-cosine pulse is asked for; where no roll-off is, one that is taken.
    pub fn cosine(&self) -> Option<Cosine> {
        match *self {
            Self::RrcLen { samples, span } => Some(Cosine {
                rolloff: 0.5,
                samples,
                span,
            }),
            Self::RrcNew { cosine } | Self::Rrc { cosine, .. } => Some(cosine),
            _ => None,
        }
    }

    /// What a second-order section is asked for.
    pub fn section(&self) -> Option<Section> {
        match *self {
            Self::BiquadCoefs { section, .. } => Some(section),
            _ => None,
        }
    }

    /// What a Butterworth filter is asked for.
    pub fn cascade(&self) -> Option<Cascade> {
        match *self {
            Self::ButterworthSos { cascade, .. } => Some(cascade),
            _ => None,
        }
    }

    /// The time constant and the rate of a pre-emphasis.
    pub fn preemphasis(&self) -> Option<(f64, f64)> {
        match *self {
            Self::PreemphasisCoefs { tau, rate, .. } => Some((tau, rate)),
            _ => None,
        }
    }

    /// What a window is asked for.
    pub fn window(&self) -> Option<Window> {
        match *self {
            Self::Window { window, .. } => Some(window),
            _ => None,
        }
    }

    /// The samples whose gain is asked for.
    pub fn samples(&self) -> Option<&Samples> {
        match self {
            Self::WindowGain { samples } => Some(samples),
            _ => None,
        }
    }

    /// The length in bytes of the buffer that the ticket comes with.
    pub fn bytes(&self) -> u64 {
        match *self {
            Self::Lowpass { bytes, .. }
            | Self::SpecDesign { bytes, .. }
            | Self::Halfband { bytes, .. }
            | Self::Gaussian { bytes, .. }
            | Self::ChannelizerPrototype { bytes, .. }
            | Self::ToQ15 { bytes, .. }
            | Self::Rrc { bytes, .. }
            | Self::BiquadCoefs { bytes, .. }
            | Self::ButterworthSos { bytes, .. }
            | Self::PreemphasisCoefs { bytes, .. }
            | Self::ToQ14 { bytes, .. }
            | Self::ToF32 { bytes, .. }
            | Self::ToF32Sos { bytes, .. }
            | Self::Window { bytes, .. } => bytes,
            _ => 0,
        }
    }
}

/// The kinds of tickets, each one exported function.
#[derive(Clone, Copy, Debug, PartialEq, Eq)]
pub enum Kind {
    BesselI0,
    KaiserBeta,
    Kaiserord,
    HalfbandLen,
    Delay,
    LowpassNew,
    Lowpass,
    SpecNumTaps,
    SpecLowpass,
    SpecDesign,
    HalfbandNew,
    Halfband,
    GaussianNew,
    Gaussian,
    ChannelizerTaps,
    ChannelizerTapsPerBranch,
    ChannelizerLowpass,
    ChannelizerPrototype,
    Q15FromF64,
    Q15Tap,
    ToQ15,
    RrcLen,
    RrcNew,
    Rrc,
    BiquadCoefs,
    ButterworthSos,
    PreemphasisCoefs,
    Q14FromF64,
    ToQ14,
    ToF32,
    ToF32Sos,
    HannF32,
    HannQ15,
    BlackmanHarrisF32,
    BlackmanHarrisQ15,
    KaiserF32,
    KaiserQ15,
    WindowGain,
}

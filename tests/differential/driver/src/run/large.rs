//! Tickets of up to 2^24 taps, which take seconds, and those that come nearest to a bound.

use std::f64::consts::PI;

use crate::lowpass::inputs::{hann, windowed};
use crate::run::draw::{CAP, Draw};
use crate::run::random::Random;
use crate::run::tickets::{Band, Channels, Cosine, Kind, LARGEST_COUNT, Pulse, Spec, Ticket};
use crate::spec::inputs::{LONGEST, needed};
use crate::{formats, windows};

/// The large tickets, with their kinds.
pub fn large() -> Vec<(Kind, Ticket)> {
    let mut all = designs();
    all.extend(beside());
    all
}

/// Tickets of up to 2^24 taps, which take seconds, or of buffers of that size.
fn designs() -> Vec<(Kind, Ticket)> {
    let spec = |taps: u64| {
        let spec = Spec {
            cutoff: 0.2,
            transition: 52.05 / 2.285 / (2.0 * PI * taps as f64),
            attenuation: 60.0,
            rate: 1.0,
            max_taps: u64::MAX,
        };
        (spec, 8 * needed(&spec))
    };
    let kaiser = Band {
        window: 3,
        beta: 8.6,
        ..hann(0.3, 1.0)
    };
    let hamming = Band {
        window: 1,
        ..hann(1e-6, 1.0)
    };
    // The elements are tried one by one.
    let steep = Band {
        beta: 713.9,
        ..kaiser
    };
    // Each of these taps is 2^-16, less a little at the ends, and is converted to 1 or to 0.
    let flat = Band {
        cutoff: 1e-12,
        ..windowed(3, 0.0)
    };
    let pulse = |span| Pulse {
        bt: 0.5,
        samples: (CAP - 1) / span,
        span,
    };
    let channels = Channels {
        channels: 256,
        passband: 0.5,
        stopband: 1.0,
        attenuation: 60.0,
    };
    let mut random = Random::new(1 << 20);
    let [converted, stopped] = formats::q15::inputs::large(1 << 20, &mut Draw::new(&mut random));
    let (longer, _) = spec(1 << 20);
    let (shorter, bytes) = spec(1 << 18);
    vec![
        (
            Kind::Lowpass,
            Ticket::Lowpass {
                band: kaiser,
                bytes: 8 * ((1 << 24) + 1),
            },
        ),
        (
            Kind::SpecDesign,
            Ticket::SpecDesign {
                spec: LONGEST,
                bytes: 8 * LARGEST_COUNT,
            },
        ),
        (
            Kind::SpecDesign,
            Ticket::SpecDesign {
                spec: shorter,
                bytes,
            },
        ),
        (Kind::SpecLowpass, Ticket::SpecLowpass { spec: longer }),
        (
            Kind::Lowpass,
            Ticket::Lowpass {
                band: kaiser,
                bytes: 8 << 20,
            },
        ),
        (
            Kind::LowpassNew,
            Ticket::LowpassNew {
                band: hamming,
                taps: CAP,
            },
        ),
        (
            Kind::Lowpass,
            Ticket::Lowpass {
                band: hann(0.3, 1.0),
                bytes: 8 * CAP,
            },
        ),
        (
            Kind::Lowpass,
            Ticket::Lowpass {
                band: flat,
                bytes: 8 * 65536,
            },
        ),
        (
            Kind::Lowpass,
            Ticket::Lowpass {
                band: steep,
                bytes: 8 * 2500,
            },
        ),
        (
            Kind::Halfband,
            Ticket::Halfband {
                beta: 8.0,
                bytes: 8 * (CAP + 3),
            },
        ),
        (
            Kind::Halfband,
            Ticket::Halfband {
                beta: 0.0,
                bytes: 8 * (CAP - 1),
            },
        ),
        (
            Kind::Halfband,
            Ticket::Halfband {
                beta: 8.6,
                bytes: 8 * ((1 << 18) - 1),
            },
        ),
        (Kind::GaussianNew, Ticket::GaussianNew { pulse: pulse(8) }),
        (
            Kind::Gaussian,
            Ticket::Gaussian {
                pulse: pulse(5),
                bytes: 8 * CAP,
            },
        ),
        (
            Kind::ChannelizerPrototype,
            Ticket::ChannelizerPrototype {
                channels,
                branch: 32,
                bytes: 8 * 8192,
            },
        ),
        (Kind::ToQ15, converted),
        (Kind::ToQ15, stopped),
    ]
}

/// The longest root-raised-cosine pulses, and conversions, windows and a gain of 2^20 elements, or
/// of as many whole sections.
fn beside() -> Vec<(Kind, Ticket)> {
    const COUNT: u64 = 1 << 20;
    let cosine = Cosine {
        rolloff: 0.35,
        samples: 1024,
        span: 32,
    };
    // A tap stands on a singular point.
    let singular = Cosine {
        rolloff: 0.25,
        ..cosine
    };
    let mut random = Random::new(COUNT);
    let mut draw = Draw::new(&mut random);
    let [converted, stopped] = formats::q14::inputs::large(COUNT - COUNT % 5, &mut draw);
    let sections = formats::singles::inputs::large(Kind::ToF32Sos, COUNT - COUNT % 5, &mut draw);
    let mut all = vec![
        (Kind::RrcNew, Ticket::RrcNew { cosine }),
        (
            Kind::Rrc,
            Ticket::Rrc {
                cosine,
                bytes: 8 * 32769,
            },
        ),
        (
            Kind::Rrc,
            Ticket::Rrc {
                cosine: singular,
                bytes: 8 * 32769,
            },
        ),
        (Kind::ToQ14, converted),
        (Kind::ToQ14, stopped),
        (
            Kind::ToF32,
            formats::singles::inputs::large(Kind::ToF32, COUNT, &mut draw),
        ),
        (Kind::ToF32Sos, sections),
        (
            Kind::WindowGain,
            windows::gain::inputs::large(COUNT, &mut draw),
        ),
    ];
    for (symmetry, kind) in [
        (0, Kind::HannF32),
        (1, Kind::HannQ15),
        (1, Kind::BlackmanHarrisF32),
        (0, Kind::BlackmanHarrisQ15),
        (0, Kind::KaiserF32),
        (1, Kind::KaiserQ15),
    ] {
        let window = windows::inputs::window(kind, 8.6, symmetry);
        let bytes = window.format.width() * COUNT;
        all.push((kind, Ticket::Window { window, bytes }));
    }
    all
}

//! The tickets of the windows: telling ones, and random ones with faults.

use crate::run::draw::{BETAS, Draw, LARGEST_BETA, ODD, SMALLEST, neighbour};
use crate::run::tickets::{Form, Format, Kind, Ticket, Window};

/// Codes that no symmetry has.
const UNKNOWN: [u64; 6] = [2, 3, 1 << 32, (1 << 32) + 1, 1 << 63, u64::MAX];

/// The window of a kind.
pub fn window(kind: Kind, beta: f64, symmetry: u64) -> Window {
    let (form, format) = match kind {
        Kind::HannF32 => (Form::Hann, Format::F32),
        Kind::HannQ15 => (Form::Hann, Format::Q15),
        Kind::BlackmanHarrisF32 => (Form::BlackmanHarris, Format::F32),
        Kind::BlackmanHarrisQ15 => (Form::BlackmanHarris, Format::Q15),
        Kind::KaiserF32 => (Form::Kaiser { beta }, Format::F32),
        _ => (Form::Kaiser { beta }, Format::Q15),
    };
    Window {
        form,
        format,
        symmetry,
    }
}

/// The telling tickets of a kind, those that tell most first.
pub fn telling(kind: Kind) -> Vec<Ticket> {
    let width = window(kind, 0.0, 0).format.width();
    let ticket = |beta, symmetry, bytes| Ticket::Window {
        window: window(kind, beta, symmetry),
        bytes,
    };
    let of = |beta, symmetry, samples| ticket(beta, symmetry, width * samples);
    let mut all = vec![
        of(8.0, 0, 4),
        of(8.0, 1, 5),
        of(8.0, 0, 1),
        of(8.0, 1, 1),
        of(8.0, 0, 0),
        of(8.0, 1, 0),
        of(8.0, 0, 2),
        of(8.0, 1, 2),
        of(8.6, 0, 16),
        of(8.6, 1, 17),
        // The symmetry, the length, the beta.
        ticket(-1.0, 2, 4 * width + 1),
        ticket(-1.0, 0, 4 * width + 1),
        ticket(-1.0, 1, 4 * width),
        ticket(f64::NAN, 0, 0),
        ticket(8.0, u64::MAX, 0),
        ticket(8.0, 1, 1),
        ticket(8.0, 1, 4 * width + width / 2),
        // The series doesn't settle, at beta or at some samples too; one symmetric sample takes none.
        of(1000.0, 1, 5),
        of(750.0, 0, 8),
        of(714.0, 1, 9),
        of(1000.0, 0, 1),
        of(1000.0, 1, 1),
        // Samples too small for the format.
        of(95.0, 1, 9),
        of(713.9, 1, 9),
        of(0.0, 1, 3),
        of(-0.0, 0, 3),
    ];
    all.extend(UNKNOWN.map(|symmetry| of(8.0, symmetry, 4)));
    if window(kind, 0.0, 0).beta().is_some() {
        all.extend(ODD.map(|beta| of(beta, 1, 4)));
        all.extend(ODD.map(|beta| of(beta, 0, 0)));
        for beta in [
            SMALLEST,
            LARGEST_BETA,
            neighbour(LARGEST_BETA, 1),
            714.0,
            1e308,
            90.0,
            100.0,
        ] {
            all.push(of(beta, 0, 7));
            all.push(of(beta, 1, 6));
        }
    }
    for samples in 0..40 {
        all.push(of(5.65326, 0, samples));
        all.push(of(5.65326, 1, samples));
    }
    all.extend((0..12).map(|bytes| ticket(2.0, 1, bytes)));
    if window(kind, 0.0, 0).beta().is_some() {
        for beta in BETAS {
            for samples in [0, 1, 2, 3, 8] {
                all.push(of(beta, 0, samples));
                all.push(of(beta, 1, samples));
            }
        }
        // What is tested before the series: the symmetry, the length, the beta.
        all.extend([
            of(1e3, 2, 4),
            ticket(1e3, 1, 4 * width + 1),
            ticket(1e3, 0, 1),
            of(-1e3, 0, 4),
            of(-1e3, 1, 1),
            of(-1e3, 1, 0),
        ]);
    }
    all
}

impl Draw<'_> {
    /// The beta of a window; more often than that of a design one with tiny samples, or one that doesn't
    /// settle.
    fn window_beta(&mut self) -> f64 {
        match self.random.below(16) {
            0 => {
                let good = self.random.uniform(80.0, 110.0);
                self.number(good, &[0.0, LARGEST_BETA])
            }
            1 => {
                let good = self.random.uniform(15.0, 900.0);
                self.number(good, &[0.0, LARGEST_BETA])
            }
            _ => self.beta(),
        }
    }
}

/// A random ticket of a kind.
pub fn draw(kind: Kind, draw: &mut Draw) -> Ticket {
    let symmetry = if draw.fault() && draw.random.below(2) == 0 {
        let any = draw.random.bits();
        let code = draw.one_of(&UNKNOWN);
        draw.one_of(&[code, code, code, any])
    } else {
        draw.random.below(2)
    };
    let window = window(kind, draw.window_beta(), symmetry);
    let samples = match draw.random.below(64) {
        0 | 1 => 0,
        2 | 3 => 1,
        4..=40 => draw.random.below(21),
        41..=62 => draw.random.below(65),
        _ => draw.random.below(400),
    };
    let width = window.format.width();
    let mut bytes = width * samples;
    if draw.fault() && draw.random.below(2) == 0 {
        bytes += 1 + draw.random.below(width - 1);
    }
    Ticket::Window { window, bytes }
}

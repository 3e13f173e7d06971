//! The tickets of a window's gain: telling ones, and random ones with faults.

use sdrk_core::window::Symmetry;

use crate::run::draw::Draw;
use crate::run::tickets::{Form, Samples, Ticket};
use crate::windows;

/// The smallest f32 above 0.
const SMALLEST: f32 = f32::from_bits(1);

/// What no sample should be: zeros, NaN, infinities, the ends of the range.
const ODD: [f32; 10] = [
    0.0,
    -0.0,
    f32::NAN,
    f32::INFINITY,
    f32::NEG_INFINITY,
    SMALLEST,
    -SMALLEST,
    f32::MAX,
    f32::MIN,
    -1.0,
];

fn gain(elements: Vec<f32>, rest: u64) -> Ticket {
    Ticket::WindowGain {
        samples: Samples {
            elements,
            rest,
            shift: 0,
        },
    }
}

/// The samples of a window.
fn made(form: Form, symmetry: Symmetry, count: usize) -> Vec<f32> {
    let mut samples = vec![0.0; count];
    windows::fill(form, symmetry, &mut samples).expect("the window is accepted");
    samples
}

/// The telling tickets, those that tell most first.
pub fn telling() -> Vec<Ticket> {
    let periodic = |form| made(form, Symmetry::Periodic, 16);
    let mut all = vec![
        gain(vec![0.0, 0.5, 1.0, 0.5], 0),
        gain(vec![], 0),
        gain(vec![], 3),
        gain(vec![1.0], 0),
        gain(vec![1.0], 1),
        gain(vec![1.0, 2.0, 3.0], 2),
        gain(vec![f32::NAN, 2.0, 3.0], 2),
        // Their sum is 0: a NaN or an infinite bandwidth.
        gain(vec![0.0, 0.0, 0.0], 0),
        gain(vec![-0.0], 0),
        gain(vec![-0.0, -0.0], 0),
        gain(vec![1.0, -1.0], 0),
        gain(vec![0.5, 0.25, -0.75], 0),
        gain(vec![f32::NAN], 0),
        gain(vec![1.0, f32::NAN, 1.0], 0),
        gain(vec![f32::INFINITY, 1.0], 0),
        gain(vec![f32::INFINITY, f32::NEG_INFINITY], 0),
        // Their squares and their sums have no f32.
        gain(vec![f32::MAX, f32::MAX, f32::MAX], 0),
        gain(vec![SMALLEST, SMALLEST], 0),
        gain(vec![1.0, f32::EPSILON / 4.0, f32::EPSILON / 4.0], 0),
        gain(vec![0.1, 0.2, 0.3, 0.4, 0.5], 0),
        gain(vec![-0.1, -0.2, -0.3], 0),
        gain(periodic(Form::Hann), 0),
        gain(periodic(Form::BlackmanHarris), 0),
        gain(periodic(Form::Kaiser { beta: 8.6 }), 0),
        gain(made(Form::Hann, Symmetry::Symmetric, 19), 0),
        gain(
            made(Form::Kaiser { beta: 1000.0 }, Symmetry::Symmetric, 5),
            0,
        ),
    ];
    all.extend(ODD.map(|odd| gain(vec![odd], 0)));
    all.extend(ODD.map(|odd| gain(vec![0.25, odd, 0.5], 0)));
    all
}

impl Draw<'_> {
    fn form(&mut self) -> Form {
        let beta = self.random.uniform(0.0, 15.0);
        self.one_of(&[Form::Hann, Form::BlackmanHarris, Form::Kaiser { beta }])
    }

    fn sample(&mut self) -> f32 {
        match self.random.below(8) {
            0..=4 => self.random.unit() as f32,
            5 => self.random.uniform(-1.0, 1.0) as f32,
            6 => {
                let size = self.random.scaled(-20, 20) as f32;
                if self.random.below(2) == 0 {
                    size
                } else {
                    -size
                }
            }
            _ => f32::from_bits(self.random.bits() as u32),
        }
    }

    /// The samples of a window, or any others.
    fn samples(&mut self, count: usize) -> Vec<f32> {
        match self.random.below(16) {
            0..=5 => {
                let symmetry = self.one_of(&[Symmetry::Periodic, Symmetry::Symmetric]);
                made(self.form(), symmetry, count)
            }
            6 => vec![self.one_of(&ODD); count],
            7 => {
                // Each sample is undone by another one.
                let mut samples: Vec<f32> = (0..count / 2).map(|_| self.sample()).collect();
                samples.extend(samples.clone().iter().map(|sample| -sample));
                samples
            }
            8..=12 => (0..count).map(|_| self.random.unit() as f32).collect(),
            _ => (0..count).map(|_| self.sample()).collect(),
        }
    }
}

/// A random ticket.
pub fn draw(draw: &mut Draw) -> Ticket {
    let count = match draw.random.below(16) {
        0 => draw.random.below(3),
        1..=13 => draw.random.below(40),
        _ => draw.random.below(200),
    };
    let mut samples = draw.samples(count as usize);
    if draw.fault() && !samples.is_empty() {
        let place = draw.random.below(samples.len() as u64) as usize;
        samples[place] = draw.one_of(&ODD);
    }
    let rest = if draw.fault() && draw.random.below(2) == 0 {
        1 + draw.random.below(3)
    } else {
        0
    };
    gain(samples, rest)
}

/// The gain of that many random samples.
pub fn large(count: u64, draw: &mut Draw) -> Ticket {
    gain((0..count).map(|_| draw.random.unit() as f32).collect(), 0)
}

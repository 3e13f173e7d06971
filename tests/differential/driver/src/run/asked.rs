//! What a ticket asks for: the records of numbers that several kinds of tickets have.

use crate::run::report::bits;

/// What a low-pass is asked for, without its length.
#[derive(Clone, Copy, Debug)]
pub struct Band {
    pub cutoff: f64,
    pub rate: f64,
    /// 0 Hann, 1 Hamming, 2 Blackman, 3 Kaiser.
    pub window: u64,
    pub beta: f64,
}

/// What a spec is asked for, without the length of a buffer.
#[derive(Clone, Copy, Debug)]
pub struct Spec {
    pub cutoff: f64,
    pub transition: f64,
    pub attenuation: f64,
    pub rate: f64,
    pub max_taps: u64,
}

/// What a Gaussian pulse is asked for.
#[derive(Clone, Copy, Debug)]
pub struct Pulse {
    pub bt: f64,
    pub samples: u64,
    pub span: u64,
}

/// What a channelizer is asked for, without the taps of a branch.
#[derive(Clone, Copy, Debug)]
pub struct Channels {
    pub channels: u64,
    pub passband: f64,
    pub stopband: f64,
    pub attenuation: f64,
}

/// The elements of a conversion, and how many bytes of another one follow them.
#[derive(Clone, Debug)]
pub struct Source {
    pub elements: Vec<f64>,
    pub rest: u64,
    /// Moves the place at which it is lent, by its alignment and its guards; no part of the question.
    pub shift: u64,
}

/// What a root-raised-cosine pulse is asked for.
#[derive(Clone, Copy, Debug)]
pub struct Cosine {
    pub rolloff: f64,
    pub samples: u64,
    pub span: u64,
}

/// What a second-order section is asked for.
#[derive(Clone, Copy, Debug)]
pub struct Section {
    /// 0 low-pass, 1 high-pass, 2 band-pass, 3 notch.
    pub response: u64,
    pub centre: f64,
    pub q: f64,
    pub rate: f64,
}

/// What a Butterworth filter is asked for.
#[derive(Clone, Copy, Debug)]
pub struct Cascade {
    /// As that of a section.
    pub response: u64,
    pub order: u64,
    pub cutoff: f64,
    pub rate: f64,
}

/// The formula of a window.
#[derive(Clone, Copy, Debug)]
pub enum Form {
    Hann,
    BlackmanHarris,
    Kaiser { beta: f64 },
}

/// The format of a window's samples.
#[derive(Clone, Copy, Debug, PartialEq, Eq)]
pub enum Format {
    F32,
    Q15,
}

/// What a window is asked for, without its length.
#[derive(Clone, Copy, Debug)]
pub struct Window {
    pub form: Form,
    pub format: Format,
    /// 0 periodic, 1 symmetric.
    pub symmetry: u64,
}

/// The samples of a window whose gain is asked for, and how many bytes of another one follow them.
#[derive(Clone, Debug)]
pub struct Samples {
    pub elements: Vec<f32>,
    pub rest: u64,
    /// As that of a source.
    pub shift: u64,
}

impl Band {
    pub fn words(&self) -> Vec<u64> {
        vec![
            bits(self.cutoff),
            bits(self.rate),
            self.window,
            bits(self.beta),
        ]
    }
}

impl Spec {
    pub fn words(&self) -> Vec<u64> {
        vec![
            bits(self.cutoff),
            bits(self.transition),
            bits(self.attenuation),
            bits(self.rate),
            self.max_taps,
        ]
    }
}

impl Pulse {
    pub fn words(&self) -> Vec<u64> {
        vec![bits(self.bt), self.samples, self.span]
    }
}

impl Channels {
    pub fn words(&self, branch: Option<u64>) -> Vec<u64> {
        let mut words = vec![self.channels];
        words.extend(branch);
        words.extend([
            bits(self.passband),
            bits(self.stopband),
            bits(self.attenuation),
        ]);
        words
    }
}

impl Source {
    /// The length in bytes.
    pub fn length(&self) -> u64 {
        8 * self.elements.len() as u64 + self.rest
    }
}

impl Cosine {
    pub fn words(&self) -> Vec<u64> {
        vec![bits(self.rolloff), self.samples, self.span]
    }
}

impl Section {
    pub fn words(&self) -> Vec<u64> {
        vec![
            self.response,
            bits(self.centre),
            bits(self.q),
            bits(self.rate),
        ]
    }
}

impl Cascade {
    pub fn words(&self) -> Vec<u64> {
        vec![
            self.response,
            self.order,
            bits(self.cutoff),
            bits(self.rate),
        ]
    }
}

impl Format {
    /// How many bytes a sample takes.
    pub fn width(self) -> u64 {
        match self {
            Self::F32 => 4,
            Self::Q15 => 2,
        }
    }
}

impl Window {
    pub fn words(&self) -> Vec<u64> {
        match self.form {
            Form::Hann | Form::BlackmanHarris => vec![self.symmetry],
            Form::Kaiser { beta } => vec![bits(beta), self.symmetry],
        }
    }

    /// The beta of a Kaiser window.
    pub fn beta(&self) -> Option<f64> {
        match self.form {
            Form::Hann | Form::BlackmanHarris => None,
            Form::Kaiser { beta } => Some(beta),
        }
    }
}

impl Samples {
    /// The length in bytes.
    pub fn length(&self) -> u64 {
        4 * self.elements.len() as u64 + self.rest
    }
}

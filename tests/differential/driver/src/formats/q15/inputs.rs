//! The tickets of the conversions to Q15: telling ones, and random ones with faults.

use sdrk_blocks::design::{DesignWindow, firwin_lowpass, gaussian, halfband_taps};

use crate::run::draw::{Draw, ODD, SMALLEST, around, neighbour};
use crate::run::tickets::{Kind, Source, Ticket};

/// The largest tap that is taken.
pub const LIMIT: f64 = f64::from_bits(0x3FF0_28D5_70A3_D70A);
/// Whether a tap of that size is taken; a NaN isn't.
pub fn is_taken(x: f64) -> bool {
    x.abs() <= LIMIT
}

/// 2^-16: the half between 0 and the next number.
const HALF: f64 = 1.0 / 65536.0;

/// The middle between two Q15 numbers, `whole` and the next.
fn middle(whole: i64) -> f64 {
    (whole as f64 + 0.5) / 32768.0
}

/// The telling numbers, those that tell most first.
fn telling_numbers() -> Vec<f64> {
    let mut all = vec![
        1.0,
        -1.0,
        HALF,
        -HALF,
        1.01,
        f64::NAN,
        LIMIT,
        neighbour(LIMIT, 1),
        -LIMIT,
        -neighbour(LIMIT, 1),
        // Rounded up to 1 by the addition of a half.
        neighbour(HALF, -1),
        neighbour(-HALF, -1),
        0.5,
        -0.5,
        f64::INFINITY,
        f64::NEG_INFINITY,
        0.0,
        -0.0,
        SMALLEST,
        -SMALLEST,
        1.0 - HALF,
        -1.0 - HALF,
        -1.01,
        2.0,
        1e300,
    ];
    for whole in [
        0, 1, 2, 99, 16383, 32765, 32766, 32767, -1, -2, -3, -100, -32768, -32769,
    ] {
        all.extend(around(middle(whole)));
        all.extend(around(whole as f64 / 32768.0));
    }
    all.extend(ODD);
    all
}

/// The taps of a design, as a conversion gets them.
fn designed(taps: usize, fill: impl FnOnce(&mut [f64]) -> sdrk_blocks::Result<()>) -> Vec<f64> {
    let mut all = vec![0.0; taps];
    fill(&mut all).expect("the design is accepted");
    all
}

fn to_q15(elements: Vec<f64>, rest: u64, bytes: u64) -> Ticket {
    Ticket::ToQ15 {
        source: Source {
            elements,
            rest,
            shift: 0,
        },
        bytes,
    }
}

fn whole(elements: Vec<f64>) -> Ticket {
    let bytes = 2 * elements.len() as u64;
    to_q15(elements, 0, bytes)
}

/// The telling conversions, those that tell most first.
fn telling_conversions() -> Vec<Ticket> {
    let numbers = telling_numbers();
    let taken: Vec<f64> = numbers.iter().copied().filter(|&x| is_taken(x)).collect();
    let mut all = vec![
        whole(taken[..12].to_vec()),
        whole(vec![]),
        whole(vec![0.5, -0.25, 1.01, 0.125]),
        whole(vec![1.01, 0.5]),
        whole(vec![0.25, 0.5, f64::NAN]),
        whole(vec![0.1, 0.2, 1.5, f64::NAN, f64::INFINITY]),
        // The lengths: the source's bytes, the destination's, then the elements, then 11.
        to_q15(vec![0.5, 0.5], 3, 5),
        to_q15(vec![0.5, 0.5], 3, 4),
        to_q15(vec![0.5, 0.5], 0, 5),
        to_q15(vec![0.5, 0.5], 0, 3),
        to_q15(vec![0.5, 0.5], 0, 2),
        to_q15(vec![0.5, 0.5], 0, 6),
        to_q15(vec![0.5, 0.5], 0, 0),
        to_q15(vec![], 0, 2),
        to_q15(vec![], 7, 0),
        to_q15(vec![], 0, 1),
        to_q15(vec![f64::NAN, 2.0], 0, 6),
        to_q15(vec![f64::NAN, 2.0], 0, 3),
        to_q15(vec![f64::NAN], 4, 2),
        to_q15(vec![0.5, 0.5], 0, 16),
        whole(designed(31, |taps| {
            firwin_lowpass(0.1, 1.0, DesignWindow::Hamming, taps)
        })),
        whole(designed(27, |taps| halfband_taps(5.65326, taps))),
        whole(designed(25, |taps| gaussian(0.5, 8, 3, taps))),
        whole(designed(1, |taps| {
            firwin_lowpass(0.1, 1.0, DesignWindow::Hann, taps)
        })),
        whole(taken[..30].to_vec()),
    ];
    // A long run of taken ones, then each of the others at its end.
    for &x in numbers.iter().filter(|x| !is_taken(**x)) {
        let mut elements = taken[..9].to_vec();
        elements.push(x);
        all.push(whole(elements));
    }
    all.push(whole(taken));
    all
}

/// The telling tickets of a kind, those that tell most first.
pub fn telling(kind: Kind) -> Vec<Ticket> {
    match kind {
        Kind::Q15FromF64 => telling_numbers()
            .into_iter()
            .map(|x| Ticket::Q15FromF64 { x })
            .collect(),
        Kind::Q15Tap => telling_numbers()
            .into_iter()
            .map(|tap| Ticket::Q15Tap { tap })
            .collect(),
        _ => telling_conversions(),
    }
}

impl Draw<'_> {
    /// A number of about the sizes that taps have.
    fn q15(&mut self) -> f64 {
        match self.random.below(16) {
            0..=3 => self.random.uniform(-1.0, 1.0),
            4..=6 => {
                let middle = middle(self.random.between(-33_100, 33_100));
                neighbour(middle, self.random.between(-2, 2))
            }
            7 => {
                let whole = self.random.between(-33_100, 33_100) as f64 / 32768.0;
                neighbour(whole, self.random.between(-1, 1))
            }
            8 | 9 => {
                let size = self.random.scaled(-30, -1);
                self.random.sign(size)
            }
            10 | 11 => {
                let near = neighbour(LIMIT, self.random.between(-3, 3));
                self.random.sign(near)
            }
            12 => {
                let near = 1.0 + self.random.uniform(-0.011, 0.011);
                self.random.sign(near)
            }
            13 => {
                let near = neighbour(HALF, self.random.between(-3, 3));
                self.random.sign(near)
            }
            14 => {
                let size = f64::from_bits(self.random.bits() >> self.random.between(12, 63));
                self.random.sign(size)
            }
            _ => {
                let size = self.random.scaled(-1022, 1);
                self.random.sign(size)
            }
        }
    }

    /// An element that is taken.
    fn taken(&mut self) -> f64 {
        let x = self.q15();
        if is_taken(x) { x } else { x / 4.0 }
    }

    /// An element that isn't taken.
    fn untaken(&mut self) -> f64 {
        let more = neighbour(LIMIT, self.random.between(1, 3));
        let huge = self.random.scaled(1, 1023);
        let nan = f64::from_bits(self.random.bits() | 0x7FF0_0000_0000_0001);
        let row = [more, more, 1.01, 1.02, 2.0, huge, f64::INFINITY, nan, nan];
        let x = self.one_of(&row);
        self.random.sign(x)
    }

    /// The taps of a small design of any kind.
    fn design(&mut self) -> Vec<f64> {
        let cutoff = self.random.uniform(0.01, 0.49);
        match self.random.below(4) {
            0 => {
                let beta = self.random.uniform(0.0, 10.0);
                let taps = 3 + 4 * self.random.below(8) as usize;
                designed(taps, |taps| halfband_taps(beta, taps))
            }
            1 => {
                let bt = self.random.uniform(0.2, 1.0);
                let samples = 2 + self.random.below(6) as usize;
                let span = 2 + self.random.below(4) as usize;
                designed(samples * span + 1, |taps| gaussian(bt, samples, span, taps))
            }
            2 => designed(1, |taps| {
                firwin_lowpass(cutoff, 1.0, DesignWindow::Hann, taps)
            }),
            _ => {
                let taps = 1 + self.random.below(32) as usize;
                designed(taps, |taps| {
                    firwin_lowpass(cutoff, 1.0, DesignWindow::Hamming, taps)
                })
            }
        }
    }

    fn conversion(&mut self) -> Ticket {
        let count = match self.random.below(16) {
            0 => self.random.below(4),
            1..=13 => self.random.below(33),
            _ => self.random.below(150),
        };
        let mut elements: Vec<f64> = if self.random.below(8) == 0 {
            self.design()
        } else {
            (0..count).map(|_| self.taken()).collect()
        };
        let count = elements.len() as u64;
        if self.fault() && count > 0 {
            let times = self.one_of(&[1, 1, 1, 2, 5]);
            for _ in 0..times {
                let last = count - 1;
                let any = self.random.below(count);
                let place = self.one_of(&[any, any, any, 0, last]) as usize;
                elements[place] = self.untaken();
            }
        }
        let rest = if self.fault() && self.random.below(2) == 0 {
            1 + self.random.below(7)
        } else {
            0
        };
        let mut bytes = 2 * count;
        if self.fault() && self.random.below(2) == 0 {
            let any = 2 * self.random.below(40);
            let fewer = bytes.saturating_sub(2);
            bytes = self.one_of(&[bytes + 2, fewer, fewer, 0, any, 8 * count]);
        }
        if self.fault() && self.random.below(2) == 0 {
            bytes += 1;
        }
        to_q15(elements, rest, bytes)
    }
}

/// A random ticket of a kind.
pub fn draw(kind: Kind, draw: &mut Draw) -> Ticket {
    if kind == Kind::ToQ15 {
        return draw.conversion();
    }
    let good = draw.q15();
    let limits = [
        LIMIT,
        -LIMIT,
        1.0,
        -1.0,
        HALF,
        -HALF,
        middle(32766),
        middle(-32769),
    ];
    let x = draw.number(good, &limits);
    if kind == Kind::Q15FromF64 {
        Ticket::Q15FromF64 { x }
    } else {
        Ticket::Q15Tap { tap: x }
    }
}

/// A conversion of that many random elements, and the same with the last one refused.
pub fn large(count: u64, draw: &mut Draw) -> [Ticket; 2] {
    let elements: Vec<f64> = (0..count).map(|_| draw.taken()).collect();
    let mut refused = elements.clone();
    if let Some(last) = refused.last_mut() {
        *last = f64::NAN;
    }
    [whole(elements), whole(refused)]
}

//! The tickets of the conversions to Q14: telling ones, and random ones with faults.

use sdrk_blocks::design::{BiquadResponse, biquad_coefs, butterworth_sos};

use crate::formats::lengths::{telling_lengths, whole};
use crate::run::draw::{Draw, ODD, SMALLEST, around, neighbour};
use crate::run::tickets::{Kind, Ticket};

/// The middle between two Q14 numbers, `whole` and the next.
fn middle(whole: i64) -> f64 {
    (whole as f64 + 0.5) / 16384.0
}

/// The first number that is taken: half a step below the smallest Q14 number.
pub const FIRST: f64 = -2.0 - 1.0 / 32768.0;

/// The first number above all that are taken: half a step above the largest Q14 number.
pub const BEYOND: f64 = 2.0 - 1.0 / 32768.0;

/// The largest Q14 number, which a refusal names.
pub const LARGEST: f64 = 2.0 - 1.0 / 16384.0;

/// Whether a number is taken; a NaN isn't.
pub fn is_taken(x: f64) -> bool {
    (FIRST..BEYOND).contains(&x)
}

/// The telling numbers, those that tell most first.
fn telling_numbers() -> Vec<f64> {
    let half = middle(0);
    let mut all = vec![
        FIRST,
        BEYOND,
        -2.0,
        LARGEST,
        2.0,
        half,
        -half,
        f64::NAN,
        neighbour(FIRST, -1),
        neighbour(FIRST, 1),
        neighbour(BEYOND, -1),
        neighbour(BEYOND, 1),
        // Rounded up to 1 by the addition of a half.
        neighbour(half, -1),
        neighbour(-half, -1),
        0.5,
        -0.5,
        1.0,
        -1.0,
        f64::INFINITY,
        f64::NEG_INFINITY,
        0.0,
        -0.0,
        SMALLEST,
        -SMALLEST,
        -2.01,
        2.01,
        1e300,
        f64::MAX,
    ];
    for whole in [
        0, 1, 2, 99, 16383, 32765, 32766, 32767, -1, -2, -3, -100, -32768, -32769,
    ] {
        all.extend(around(middle(whole)));
        all.extend(around(whole as f64 / 16384.0));
    }
    all.extend(ODD);
    all
}

/// The telling conversions, those that tell most first.
fn telling_conversions() -> Vec<Ticket> {
    let whole = |elements: Vec<f64>| whole(Kind::ToQ14, elements);
    let numbers = telling_numbers();
    let taken: Vec<f64> = numbers.iter().copied().filter(|&x| is_taken(x)).collect();
    let mut ten = taken[..10].to_vec();
    ten[9] = BEYOND;
    let mut all = vec![
        whole(taken[..15].to_vec()),
        whole(vec![0.5, -2.0, 1.0, 0.25, 0.0]),
        whole(vec![2.0, 0.5, 0.5, 0.5, 0.5]),
        whole(vec![0.5, 0.5, 0.5, 0.5, f64::NAN]),
        whole(vec![
            0.5, 0.5, 0.5, 0.5, 0.5, 0.25, BEYOND, 0.25, 0.25, 0.25,
        ]),
        whole(ten),
        whole(vec![0.1, FIRST, 2.5, f64::NAN, f64::INFINITY]),
    ];
    all.extend(telling_lengths(Kind::ToQ14));
    // A section of taken ones, then each of the others at the end of the next.
    for &x in numbers.iter().filter(|x| !is_taken(**x)) {
        let mut elements = taken[..9].to_vec();
        elements.push(x);
        all.push(whole(elements));
    }
    all.push(whole(taken[..taken.len() / 5 * 5].to_vec()));
    all
}

/// The telling tickets of a kind, those that tell most first.
pub fn telling(kind: Kind) -> Vec<Ticket> {
    match kind {
        Kind::Q14FromF64 => telling_numbers()
            .into_iter()
            .map(|x| Ticket::Q14FromF64 { x })
            .collect(),
        _ => telling_conversions(),
    }
}

impl Draw<'_> {
    /// A number of about the sizes that coefficients have.
    fn q14(&mut self) -> f64 {
        match self.random.below(16) {
            0..=3 => self.random.uniform(-2.0, 2.0),
            4..=6 => {
                let middle = middle(self.random.between(-32_770, 32_770));
                neighbour(middle, self.random.between(-2, 2))
            }
            7 => {
                let whole = self.random.between(-32_770, 32_770) as f64 / 16384.0;
                neighbour(whole, self.random.between(-1, 1))
            }
            8 | 9 => {
                let size = self.random.scaled(-30, 1);
                self.random.sign(size)
            }
            10 => neighbour(FIRST, self.random.between(-3, 3)),
            11 => neighbour(BEYOND, self.random.between(-3, 3)),
            12 => {
                let near = 2.0 + self.random.uniform(-1e-4, 1e-4);
                self.random.sign(near)
            }
            13 => {
                let near = neighbour(middle(0), self.random.between(-3, 3));
                self.random.sign(near)
            }
            14 => {
                let size = f64::from_bits(self.random.bits() >> self.random.between(12, 63));
                self.random.sign(size)
            }
            _ => {
                let size = self.random.scaled(-1022, 1);
                self.random.sign(size)
            }
        }
    }

    /// A coefficient that is taken.
    fn coefficient(&mut self) -> f64 {
        let x = self.q14();
        if is_taken(x) { x } else { x / 4.0 }
    }

    /// A coefficient that isn't taken.
    fn no_coefficient(&mut self) -> f64 {
        let above = neighbour(BEYOND, self.random.between(0, 3));
        let below = neighbour(FIRST, self.random.between(-3, -1));
        let huge = self.random.scaled(2, 1023);
        let huge = self.random.sign(huge);
        let infinity = self.random.sign(f64::INFINITY);
        let nan = f64::from_bits(self.random.bits() | 0x7FF0_0000_0000_0001);
        self.one_of(&[above, above, below, below, 2.0, huge, infinity, nan, nan])
    }

    /// The sections of a filter.
    fn sections(&mut self) -> Vec<f64> {
        let edge = self.random.uniform(0.01, 0.49);
        if self.random.below(2) == 0 {
            let q = self.random.uniform(0.3, 20.0);
            let response = [
                BiquadResponse::Lowpass,
                BiquadResponse::Highpass,
                BiquadResponse::Bandpass,
                BiquadResponse::Notch,
            ];
            let section = biquad_coefs(self.one_of(&response), edge, q, 1.0);
            return section.expect("the section is accepted").to_vec();
        }
        let order = 2 * (1 + self.random.below(4)) as usize;
        let mut sections = vec![[0.0; 5]; order / 2];
        let response = self.one_of(&[BiquadResponse::Lowpass, BiquadResponse::Highpass]);
        butterworth_sos(response, order, edge, 1.0, &mut sections).expect("the filter is accepted");
        sections.concat()
    }

    fn q14_conversion(&mut self) -> Ticket {
        let mut elements: Vec<f64> = if self.random.below(8) == 0 {
            self.sections()
        } else {
            let count = self.elements(Kind::ToQ14);
            (0..count).map(|_| self.coefficient()).collect()
        };
        let count = elements.len() as u64;
        if self.fault() && count > 0 {
            let times = self.one_of(&[1, 1, 1, 2, 5]);
            for _ in 0..times {
                let any = self.random.below(count);
                let place = self.one_of(&[any, any, any, 0, count - 1]) as usize;
                elements[place] = self.no_coefficient();
            }
        }
        self.lengths(Kind::ToQ14, elements)
    }
}

/// A random ticket of a kind.
pub fn draw(kind: Kind, draw: &mut Draw) -> Ticket {
    if kind == Kind::ToQ14 {
        return draw.q14_conversion();
    }
    let good = draw.q14();
    let x = draw.number(good, &[FIRST, BEYOND, -2.0, LARGEST, 2.0, middle(0)]);
    Ticket::Q14FromF64 { x }
}

/// A conversion of that many random elements, and the same with the last one refused.
pub fn large(count: u64, draw: &mut Draw) -> [Ticket; 2] {
    let elements: Vec<f64> = (0..count).map(|_| draw.coefficient()).collect();
    let mut refused = elements.clone();
    if let Some(last) = refused.last_mut() {
        *last = BEYOND;
    }
    [whole(Kind::ToQ14, elements), whole(Kind::ToQ14, refused)]
}

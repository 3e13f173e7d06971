//! The tickets of the conversions to f32: telling ones, and random ones with faults.

use crate::formats::lengths::{telling_lengths, whole};
use crate::run::draw::{Draw, ODD, around, neighbour};
use crate::run::tickets::{Kind, Ticket};

/// 2 to a power that an f64 has.
fn power(exponent: i64) -> f64 {
    2.0_f64.powi(exponent as i32)
}

/// The middle between the largest f32 and the power of two above it: the first number that becomes
/// infinite.
pub const OVERFLOW: f64 = f64::from_bits(0x47EF_FFFF_F000_0000);

/// Half of the smallest f32 above 0: the last number that becomes 0.
pub const UNDERFLOW: f64 = f64::from_bits(0x3690_0000_0000_0000);

/// The telling numbers, those that tell most first.
fn telling_numbers() -> Vec<f64> {
    let last = power(-24);
    let mut all = vec![
        // Between two f32s: to the even one, below and above.
        1.0 + last,
        1.0 + 3.0 * last,
        neighbour(1.0 + last, 1),
        neighbour(1.0 + 3.0 * last, -1),
        -1.0 - last,
        OVERFLOW,
        neighbour(OVERFLOW, -1),
        f64::from(f32::MAX),
        f64::NAN,
        -0.0,
        // Subnormal f32s, and between two of them.
        power(-149),
        UNDERFLOW,
        neighbour(UNDERFLOW, 1),
        3.0 * UNDERFLOW,
        5.0 * UNDERFLOW,
        -3.0 * UNDERFLOW,
        power(-126),
        // Between the largest subnormal f32 and the smallest normal one.
        power(-126) - UNDERFLOW,
        power(-126) - 3.0 * UNDERFLOW,
        1e-40,
        0.0,
        0.1,
        -1.5,
        1.0 / 3.0,
        // All bits carry into the next power of two.
        2.0 - last,
        neighbour(2.0, -1),
        f64::INFINITY,
        f64::NEG_INFINITY,
        1e300,
        -1e300,
        1e-300,
        -1e-300,
        f64::from_bits(1),
        f64::from_bits(0x7FF0_0000_0000_0001),
        f64::from_bits(0xFFF0_0000_2000_0000),
    ];
    for x in [
        1.0 + last,
        1.0 + 3.0 * last,
        2.0 - last,
        OVERFLOW,
        power(128),
        UNDERFLOW,
        power(-149),
        3.0 * UNDERFLOW,
        power(-126),
        power(-126) - UNDERFLOW,
        power(-127),
        power(-127) + UNDERFLOW,
        0.1,
    ] {
        all.extend(around(x));
        all.extend(around(-x));
    }
    all.extend(ODD);
    all
}

/// The telling tickets of a kind, those that tell most first.
pub fn telling(kind: Kind) -> Vec<Ticket> {
    let numbers = telling_numbers();
    let mut all = vec![
        whole(kind, numbers[..10].to_vec()),
        whole(kind, numbers[10..25].to_vec()),
        whole(kind, numbers[25..35].to_vec()),
    ];
    // One number in the place that it would have as the last of a section.
    all.extend(
        numbers
            .iter()
            .take(9)
            .map(|&x| whole(kind, vec![1.0, 2.0, 3.0, 4.0, x])),
    );
    all.extend(telling_lengths(kind));
    all.push(whole(kind, numbers[..numbers.len() / 5 * 5].to_vec()));
    all
}

impl Draw<'_> {
    /// Half of the distance between an f32 and the next one away from 0.
    fn half_step(&mut self, single: f32) -> f64 {
        let next = f32::from_bits(single.to_bits() + 1);
        (f64::from(next) - f64::from(single)) / 2.0
    }

    /// A number of any size that an f32 has, often next to an f32 or to the middle of two.
    fn single(&mut self) -> f64 {
        let size = match self.random.below(16) {
            0..=3 => self.random.unit(),
            4..=7 => {
                // A positive f32 of any size, its fraction often ending in zeros or ones.
                let exponent = self.random.below(254) << 23;
                let single = f32::from_bits((exponent | self.random.fraction() >> 29) as u32);
                let half = self.half_step(single);
                neighbour(f64::from(single) + half, self.random.between(-2, 2))
            }
            8 | 9 => {
                // The same among the subnormal ones.
                let bits = self.random.bits() as u32 >> self.random.between(9, 31);
                let single = f32::from_bits(bits);
                let half = self.half_step(single);
                let off = self.one_of(&[0.0, half, half, half]);
                neighbour(f64::from(single) + off, self.random.between(-2, 2))
            }
            10 => neighbour(OVERFLOW, self.random.between(-3, 3)),
            11 => self.random.scaled(120, 129),
            12 => self.random.scaled(-155, -120),
            13 => self.random.scaled(-1022, 1023),
            14 => f64::from_bits(self.random.bits() >> self.random.between(12, 63)),
            _ => self.random.scaled(-10, 10),
        };
        self.random.sign(size)
    }

    /// A number as a conversion to f32 gets it: a good one or a fault.
    fn converted(&mut self) -> f64 {
        let good = self.single();
        self.number(good, &[OVERFLOW, UNDERFLOW, -OVERFLOW, power(-126)])
    }
}

/// A random ticket of a kind.
pub fn draw(kind: Kind, draw: &mut Draw) -> Ticket {
    let count = draw.elements(kind);
    let elements = (0..count).map(|_| draw.converted()).collect();
    draw.lengths(kind, elements)
}

/// A conversion of that many random elements.
pub fn large(kind: Kind, count: u64, draw: &mut Draw) -> Ticket {
    whole(kind, (0..count).map(|_| draw.single()).collect())
}

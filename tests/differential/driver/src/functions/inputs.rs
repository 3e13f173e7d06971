//! The inputs of a run: the limits of each function with their neighbours, regular rows, random ones.

use std::f64::consts::{FRAC_PI_4, LN_2, PI};

use crate::run::draw::neighbour;
use crate::run::random::Random;

/// What a function's own inputs look like.
#[derive(Clone, Copy, Debug, PartialEq, Eq)]
pub enum Shape {
    /// `floor`, `ceil`, `fabs`: near whole numbers.
    Whole,
    /// `sqrt`: not negative, of any size.
    Root,
    /// `sin`, `cos`: sizes up to 2^25.
    Angle,
    /// `exp`: −700 to 0.
    Exponent,
    /// `pow04`: 0 to 29.
    Power,
}

const TWO_25: f64 = 33_554_432.0;
const TWO_51: f64 = 2_251_799_813_685_248.0;
const TWO_52: f64 = 4_503_599_627_370_496.0;
const TWO_53: f64 = 9_007_199_254_740_992.0;
const SMALLEST: f64 = f64::from_bits(1);
const LARGEST_SUBNORMAL: f64 = f64::from_bits((1 << 52) - 1);
const SMALLEST_NORMAL: f64 = f64::MIN_POSITIVE;

/// Every point with its neighbours up to `steps` places either way.
fn with_neighbours(points: &[f64], steps: i64) -> Vec<f64> {
    let mut all = Vec::new();
    for &point in points {
        all.push(point);
        for step in 1..=steps {
            all.push(neighbour(point, -step));
            all.push(neighbour(point, step));
        }
    }
    all
}

/// Every point, then its negative.
fn with_negatives(points: &[f64]) -> Vec<f64> {
    points.iter().flat_map(|&point| [point, -point]).collect()
}

/// The points at which the function's answer changes its nature, without neighbours.
fn turning_points(shape: Shape) -> Vec<f64> {
    match shape {
        Shape::Whole => with_negatives(&[
            0.5,
            1.0,
            1.5,
            2.0,
            2.5,
            3.0,
            32767.5,
            32768.0,
            TWO_51,
            TWO_51 + 0.5,
            TWO_52,
            TWO_53,
        ]),
        Shape::Root => vec![
            0.25, 0.5, 1.0, 2.0, 2.25, 3.0, 4.0, 9.0, 1e300, 1e-300, TWO_52, TWO_53, -1.0,
        ],
        Shape::Angle => with_negatives(&[
            FRAC_PI_4,
            2.0 * FRAC_PI_4,
            3.0 * FRAC_PI_4,
            PI,
            5.0 * FRAC_PI_4,
            6.0 * FRAC_PI_4,
            7.0 * FRAC_PI_4,
            2.0 * PI,
            1.0,
            TWO_25,
        ]),
        Shape::Exponent => vec![
            -700.0,
            -708.4,
            -745.2,
            -699.5,
            -LN_2,
            -LN_2 / 2.0,
            -1.5 * LN_2,
            -1.0,
            -0.5,
            -1009.5 * LN_2,
            1.0,
            700.0,
        ],
        Shape::Power => vec![
            29.0, 28.0, 14.5, 10.0, 1.0, 0.5, 32.0, 30.0, 7e-22, 1e-3, 3.5e-15, -1.0, -29.0,
        ],
    }
}

/// The ends of the number range: zeros, the smallest and largest numbers, infinities, a NaN.
fn ends() -> Vec<f64> {
    let mut all = with_negatives(&[
        0.0,
        SMALLEST,
        f64::from_bits(2),
        f64::from_bits(0x0000_0123_4567_89AB),
        LARGEST_SUBNORMAL,
        SMALLEST_NORMAL,
        1e-300,
        f64::MAX,
        f64::INFINITY,
    ]);
    all.push(f64::NAN);
    all
}

/// The telling inputs of the list: ends, turning points with neighbours, and one of each quadrant,
/// half or step.
pub fn telling(shape: Shape) -> Vec<f64> {
    let mut all = ends();
    all.extend(with_neighbours(&turning_points(shape), 1));
    match shape {
        Shape::Whole => {
            all.extend(with_negatives(&[
                0.1,
                0.75,
                1.25,
                123.456,
                32766.5,
                TWO_52 - 0.5,
            ]));
        }
        Shape::Root => {
            all.extend([
                5.0,
                10.0,
                1e15 + 0.3,
                94_906_265.0 * 94_906_265.0,
                f64::from_bits(3),
            ]);
            // Roots next to the middle of two neighbours.
            all.extend([1u64, 3, 5, 7, 11].map(|i| near_tie((1 << 53) + i * 0x1_2345_6789, 0)));
        }
        Shape::Angle => {
            // The middle of each eighth, then each quadrant near the largest size taken.
            for eighth in 0..8 {
                all.extend(with_negatives(&[(f64::from(eighth) + 0.5) * FRAC_PI_4]));
            }
            for quarter in 0..4 {
                let turn = f64::from(quarter) * PI / 2.0;
                all.extend(with_negatives(&[TWO_25 - 1.0 - turn]));
            }
            all.extend(with_negatives(&[
                1e-8,
                1e-3,
                100.0,
                12345.678,
                2.0 * TWO_25,
                1e22,
            ]));
        }
        Shape::Exponent => {
            all.extend([
                -1e-17, -1e-10, -0.1, -2.0, -10.0, -100.0, -350.25, -1e5, -1e308,
            ]);
            for half in [1, 2, 3, 10, 11, 100, 1001, 2019] {
                all.push(f64::from(half) * -LN_2 / 2.0);
            }
        }
        Shape::Power => {
            all.extend([
                2.0, 3.0, 5.0, 9.0, 20.0, 25.0, 28.999, 0.1, 1e-9, 1e-22, 1e-160, 1e-200,
            ]);
        }
    }
    all
}

/// The regular inputs of the comparison: the telling ones, and whole rows of limits and neighbours.
pub fn regular(shape: Shape) -> Vec<f64> {
    let mut all = telling(shape);
    all.extend(with_neighbours(&ends(), 40));
    all.extend(with_neighbours(&turning_points(shape), 40));
    // NaNs of both signs and many payloads.
    for bit in 0..52 {
        for sign in [0, 1 << 63] {
            all.push(f64::from_bits(sign | 0x7FF0_0000_0000_0000 | 1 << bit));
            all.push(f64::from_bits(sign | 0x7FF8_0000_0000_0000 | 1 << bit));
            all.push(f64::from_bits(sign | 0x7FFF_FFFF_FFFF_FFFF ^ 1 << bit));
        }
    }
    // Every power of two, subnormal ones too.
    let mut powers: Vec<f64> = (0..52).map(|bit| f64::from_bits(1 << bit)).collect();
    powers.extend((1..2047).map(|exponent| f64::from_bits(exponent << 52)));
    all.extend(with_neighbours(&with_negatives(&powers), 3));
    // Small whole numbers and their quarters.
    let quarters: Vec<f64> = (-4096..=4096).map(|i| f64::from(i) / 4.0).collect();
    all.extend(with_neighbours(&quarters, 3));
    let row: Vec<f64> = match shape {
        Shape::Whole => (0..4096)
            .flat_map(|i| {
                let i = f64::from(i) / 2.0;
                with_negatives(&[
                    TWO_51 - i,
                    TWO_51 + i,
                    TWO_52 - i,
                    TWO_52 + i,
                    TWO_53 - i,
                    TWO_53 + 4.0 * i,
                ])
            })
            .collect(),
        Shape::Root => (1..20_000)
            .map(|i| {
                let i = 94_906_265.0 - f64::from(i) * 4_745.0;
                i * i
            })
            .collect(),
        Shape::Angle => {
            // Multiples of PI/4: all small ones, and those next to the largest size taken.
            let last = (TWO_25 / FRAC_PI_4).floor();
            (0..20_000)
                .flat_map(|i| {
                    let i = f64::from(i);
                    with_negatives(&[i * FRAC_PI_4, (last + 8.0 - i) * FRAC_PI_4])
                })
                .collect()
        }
        Shape::Exponent => (0..=2200).map(|i| f64::from(i) * -LN_2 / 2.0).collect(),
        Shape::Power => (0..=30_000).map(|i| f64::from(i) / 1000.0).collect(),
    };
    all.extend(with_neighbours(&row, 2));
    all
}

/// A number whose root is next to the middle of two neighbouring f64: from an odd 54-bit number,
/// half a unit off every f64, the nearest f64 to its square, times 4^`quarter`.
fn near_tie(root: u64, quarter: i64) -> f64 {
    let root = u128::from(root | 1);
    let square = (root * root) as f64;
    square * f64::from_bits(((1023 + 2 * (quarter - 54)) as u64) << 52)
}

/// A random input: mostly the function's own, now and then of any kind.
pub fn draw(shape: Shape, random: &mut Random) -> f64 {
    match random.below(32) {
        0 | 1 => f64::from_bits(random.bits()),
        // The exponent is spread evenly, from the subnormals to infinities and NaNs.
        2..=4 => f64::from_bits(random.below(4096) << 52 | random.fraction()),
        5 => {
            let subnormal = f64::from_bits(random.bits() >> random.between(12, 63));
            random.sign(subnormal)
        }
        6 => f64::from_bits(random.bits() | 0x7FF0_0000_0000_0000),
        _ => own(shape, random),
    }
}

/// A random input of the function's own kind.
pub fn own(shape: Shape, random: &mut Random) -> f64 {
    let steps = random.between(-3, 3);
    match shape {
        Shape::Whole => {
            let x = match random.below(4) {
                0 => random.scaled(-4, 55),
                1 => neighbour((random.bits() >> random.between(10, 63)) as f64, steps),
                2 => neighbour(
                    (random.bits() >> random.between(12, 63)) as f64 + 0.5,
                    steps,
                ),
                _ => random.uniform(0.0, 40_000.0),
            };
            random.sign(x)
        }
        Shape::Root => match random.below(4) {
            0 => random.scaled(-1022, 1023),
            1 => {
                let root = (random.bits() >> random.between(37, 63)) as f64;
                neighbour(root * root, steps.max(0))
            }
            2 => {
                let root = 1 << 53 | random.bits() >> 11;
                let square = near_tie(root, random.between(-480, 480));
                neighbour(square, random.between(-1, 1))
            }
            _ => random.uniform(0.0, 4.0),
        },
        Shape::Angle => {
            let x = match random.below(6) {
                0 | 1 => random.uniform(0.0, TWO_25),
                2 => random.uniform(0.0, 8.0),
                3 => random.scaled(-60, 25),
                4 => {
                    let multiple = (random.bits() >> random.between(39, 63)) as f64 * 2.6;
                    neighbour(multiple.floor() * FRAC_PI_4, steps)
                }
                // An angle of a window: 2·PI·i/d.
                _ => {
                    let d = random.between(1, 20_000);
                    let i = random.between(0, d);
                    2.0 * PI * i as f64 / d as f64
                }
            };
            random.sign(x)
        }
        Shape::Exponent => match random.below(6) {
            0 | 1 => random.uniform(-700.0, 0.0),
            2 => random.uniform(-1.0, 0.0),
            3 => -random.scaled(-60, 9),
            4 => neighbour(random.below(2100) as f64 * -LN_2 / 2.0, steps),
            _ => random.uniform(-760.0, -690.0),
        },
        Shape::Power => match random.below(6) {
            0 | 1 => random.uniform(0.0, 29.0),
            2 => random.scaled(-75, 5),
            3 => random.scaled(-1022, 4),
            // What is left of an attenuation from 21 to 50.
            4 => (21_000 + random.below(29_001)) as f64 / 1000.0 - 21.0,
            _ => random.uniform(28.9, 29.1),
        },
    }
}

/// The smallest number that `pow04` is asked for: what an f64 attenuation above 21 leaves.
pub const SMALLEST_POWER: f64 = f64::from_bits((1023 - 48) << 52);

/// A random input inside the range in which the designers call the function.
pub fn inside(shape: Shape, random: &mut Random) -> f64 {
    loop {
        let x = own(shape, random);
        let taken = match shape {
            Shape::Whole => true,
            Shape::Root => x > 0.0,
            Shape::Angle => x.abs() <= TWO_25,
            Shape::Exponent => (-700.0..=0.0).contains(&x),
            Shape::Power => (SMALLEST_POWER..=29.0).contains(&x),
        };
        if taken {
            return x;
        }
    }
}

//! How the numbers of a ticket are drawn: each on its own, as a good one or as a fault.

use crate::run::random::Random;

/// The largest number of taps that a low-pass takes.
pub const CAP: u64 = 1 << 24;
/// The smallest f64 above 0.
pub const SMALLEST: f64 = f64::from_bits(1);
/// The largest beta whose series settles.
pub const LARGEST_BETA: f64 = 713.986_908_543_968_2;
/// Betas about it and beyond. From 761 on these take 500 terms, those below fewer.
pub const BETAS: [f64; 12] = [
    713.0,
    LARGEST_BETA,
    LARGEST_BETA.next_up(),
    714.0,
    750.0,
    753.0,
    754.0,
    761.0,
    1e3,
    1e4,
    1e100,
    1e308,
];
/// The smallest transition that 60 dB at rate 1 can have: 16777217 taps.
pub const NARROWEST: f64 = f64::from_bits(0x3E8D_00CC_45E9_3F3A);
/// The most taps that a random ticket may have designed.
pub const RANDOM_TAPS: u64 = 5000;

/// Counts at which the answer changes its nature, or would if a count lost its upper bits.
pub const COUNTS: [u64; 14] = [
    0,
    1,
    2,
    3,
    CAP - 1,
    CAP,
    CAP + 1,
    CAP + 2,
    1 << 32,
    (1 << 32) + 5,
    (1 << 53) + 1,
    1 << 63,
    u64::MAX - 1,
    u64::MAX,
];

/// The f64 `steps` places above `x` in the order of all numbers (below if negative).
pub fn neighbour(x: f64, steps: i64) -> f64 {
    if x.is_nan() {
        return x;
    }
    let mirror = |i: i64| if i < 0 { i64::MIN - i } else { i };
    let top = f64::INFINITY.to_bits() as i64;
    let place = (mirror(x.to_bits() as i64) + steps).clamp(-top, top);
    f64::from_bits(mirror(place) as u64)
}

/// A number and its neighbours.
pub fn around(x: f64) -> [f64; 3] {
    [neighbour(x, -1), x, neighbour(x, 1)]
}

/// What no number should be: zeros, a negative one, NaN, infinities, the ends of the range.
pub const ODD: [f64; 10] = [
    0.0,
    -0.0,
    -1.0,
    f64::NAN,
    f64::INFINITY,
    f64::NEG_INFINITY,
    SMALLEST,
    -SMALLEST,
    f64::MAX,
    f64::MIN,
];

/// Draws the numbers of one ticket, each on its own a good one or a fault.
pub struct Draw<'a> {
    pub random: &'a mut Random,
    /// How many of 8 numbers are no good ones.
    faults: u64,
}

impl Draw<'_> {
    pub fn new(random: &mut Random) -> Draw<'_> {
        let faults = [0, 0, 1, 1, 2, 3, 4, 6][random.below(8) as usize];
        Draw { random, faults }
    }

    pub fn fault(&mut self) -> bool {
        self.random.below(8) < self.faults
    }

    pub fn one_of<T: Copy>(&mut self, row: &[T]) -> T {
        row[self.random.below(row.len() as u64) as usize]
    }

    /// The good number, or a fault in its place: a limit, its neighbour, or a number of any kind.
    pub fn number(&mut self, good: f64, limits: &[f64]) -> f64 {
        if !self.fault() {
            return good;
        }
        match self.random.below(12) {
            0 => self.one_of(limits),
            1..=3 => {
                let steps = self.random.between(-2, 2);
                neighbour(self.one_of(limits), steps)
            }
            4 => self.random.sign(0.0),
            5 => -good,
            6 => f64::from_bits(self.random.bits() | 0x7FF0_0000_0000_0001),
            7 => self.random.sign(f64::INFINITY),
            8 => {
                let subnormal = f64::from_bits(self.random.bits() >> self.random.between(12, 63));
                self.random.sign(subnormal)
            }
            9 => {
                let huge = self.random.scaled(1000, 1023);
                self.random.sign(huge)
            }
            10 => {
                let tiny = self.random.scaled(-1022, -990);
                self.random.sign(tiny)
            }
            _ => f64::from_bits(self.random.bits()),
        }
    }

    /// A rate that is taken: as a rule a usual one, at times one of any size.
    pub fn rate(&mut self) -> f64 {
        match self.random.below(16) {
            0..=3 => 1.0,
            4..=8 => self.one_of(&[2.0, 8000.0, 44_100.0, 48_000.0, 2.4e6]),
            9..=12 => self.random.scaled(-10, 30),
            13 => self.random.scaled(-1022, 1023),
            14 => f64::from_bits(1 + self.random.below(40)),
            _ => self.random.uniform(0.5, 2.0),
        }
    }

    /// The number of taps of a design that is to be made.
    pub fn taps(&mut self) -> u64 {
        1 + match self.random.below(400) {
            0..=239 => self.random.below(32),
            240..=359 => self.random.below(100),
            360..=396 => self.random.below(200),
            _ => {
                let most = self.one_of(&[1000, 1000, 1000, RANDOM_TAPS]);
                self.random.below(most)
            }
        }
    }

    /// The beta of a Kaiser window; at times one about the largest whose series settles.
    pub fn beta(&mut self) -> f64 {
        let good = match self.random.below(64) {
            0..=5 => self.one_of(&[0.0, -0.0, SMALLEST, 1e-300, 5.65326]),
            6 => self.one_of(&BETAS),
            7 => self.random.uniform(713.0, LARGEST_BETA),
            _ => self.random.uniform(0.0, 15.0),
        };
        self.number(good, &[0.0, LARGEST_BETA])
    }
}

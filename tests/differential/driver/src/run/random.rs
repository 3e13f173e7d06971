//! A fixed generator of random numbers (splitmix64), so that a seed always gives the same run.

pub struct Random(u64);

impl Random {
    pub fn new(seed: u64) -> Self {
        Self(seed)
    }

    /// The next 64 bits.
    pub fn bits(&mut self) -> u64 {
        self.0 = self.0.wrapping_add(0x9E37_79B9_7F4A_7C15);
        let mut z = self.0;
        z = (z ^ (z >> 30)).wrapping_mul(0xBF58_476D_1CE4_E5B9);
        z = (z ^ (z >> 27)).wrapping_mul(0x94D0_49BB_1331_11EB);
        z ^ (z >> 31)
    }

    /// A whole number from 0 to `count` − 1.
    pub fn below(&mut self, count: u64) -> u64 {
        ((u128::from(self.bits()) * u128::from(count)) >> 64) as u64
    }

    /// A whole number from `low` to `high`, both taken.
    pub fn between(&mut self, low: i64, high: i64) -> i64 {
        low + self.below((high - low + 1) as u64) as i64
    }

    /// A number from 0 to 1, spread evenly.
    pub fn unit(&mut self) -> f64 {
        (self.bits() >> 11) as f64 / 9_007_199_254_740_992.0
    }

    /// A number from `low` to `high`, spread evenly.
    pub fn uniform(&mut self, low: f64, high: f64) -> f64 {
        low + (high - low) * self.unit()
    }

    /// `x` or −`x`.
    pub fn sign(&mut self, x: f64) -> f64 {
        if self.bits() >> 63 == 1 { -x } else { x }
    }

    /// A positive number whose exponent is spread evenly from `low` to `high` (−1022 to 1023).
    pub fn scaled(&mut self, low: i64, high: i64) -> f64 {
        let exponent = (self.between(low, high) + 1023) as u64;
        f64::from_bits(exponent << 52 | self.fraction())
    }

    /// 52 fraction bits: as a rule random, at times with a tail of zeros or of ones.
    pub fn fraction(&mut self) -> u64 {
        let bits = self.bits() >> 12;
        let tail = (1 << self.below(53)) - 1;
        match self.below(8) {
            0 => bits & !tail,
            1 => bits | tail,
            _ => bits,
        }
    }
}

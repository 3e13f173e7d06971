//! Whole numbers of 2304 bits that are never negative, for exact sums of f64s: every finite f64 is
//! a whole multiple of 2^-1074.
//!
//! The longest number that is needed is 2^52 times the sum of 2^24 f64s, below 2^2174.

use std::cmp::Ordering;

const LIMBS: usize = 36;

/// The place of the number 1 among the multiples of 2^-1074.
pub const ONE: usize = 1074;

/// The limbs, the lowest first.
#[derive(Clone, Copy, Debug, PartialEq, Eq)]
pub struct Whole([u64; LIMBS]);

impl Whole {
    pub const ZERO: Self = Self([0; LIMBS]);

    /// `value` times 2^`place`.
    pub fn at(value: u64, place: usize) -> Self {
        let mut whole = Self::ZERO;
        whole.add_at(value, place);
        whole
    }

    /// Adds `value` times 2^`place`. As a rule this touches two limbs.
    pub fn add_at(&mut self, value: u64, place: usize) {
        let limb = place / 64;
        let wide = u128::from(value) << (place % 64);
        let (low, carry) = self.0[limb].overflowing_add(wide as u64);
        self.0[limb] = low;
        let (high, first) = self.0[limb + 1].overflowing_add((wide >> 64) as u64);
        let (high, second) = high.overflowing_add(u64::from(carry));
        self.0[limb + 1] = high;
        let mut carry = first || second;
        let mut limb = limb + 2;
        while carry {
            // A carry out of the last limb can't be, by the lengths above.
            (self.0[limb], carry) = self.0[limb].overflowing_add(1);
            limb += 1;
        }
    }

    /// Adds the size of a finite f64, as a multiple of 2^-1074.
    pub fn add_size(&mut self, x: f64) {
        let bits = x.to_bits();
        let exponent = (bits >> 52 & 0x7FF) as usize;
        let fraction = bits & ((1 << 52) - 1);
        if exponent == 0 {
            self.add_at(fraction, 0);
        } else {
            self.add_at(fraction | 1 << 52, exponent - 1);
        }
    }

    pub fn plus(mut self, other: &Self) -> Self {
        let mut carry = false;
        for (limb, &more) in self.0.iter_mut().zip(&other.0) {
            let (sum, first) = limb.overflowing_add(more);
            let (sum, second) = sum.overflowing_add(u64::from(carry));
            *limb = sum;
            carry = first || second;
        }
        assert!(!carry, "a sum is too long");
        self
    }

    /// The distance between the two.
    pub fn distance(&self, other: &Self) -> Self {
        let (mut larger, smaller) = match self.cmp(other) {
            Ordering::Less => (*other, self),
            _ => (*self, other),
        };
        let mut borrow = false;
        for (limb, &less) in larger.0.iter_mut().zip(&smaller.0) {
            let (rest, first) = limb.overflowing_sub(less);
            let (rest, second) = rest.overflowing_sub(u64::from(borrow));
            *limb = rest;
            borrow = first || second;
        }
        larger
    }

    pub fn times(mut self, factor: u64) -> Self {
        let mut carry = 0;
        for limb in &mut self.0 {
            let wide = u128::from(*limb) * u128::from(factor) + carry;
            *limb = wide as u64;
            carry = wide >> 64;
        }
        assert!(carry == 0, "a product is too long");
        self
    }

    /// The highest limb that isn't 0 and the one below it, and the place of the lower one.
    fn top(&self) -> (u128, i32) {
        let high = self
            .0
            .iter()
            .rposition(|&limb| limb != 0)
            .unwrap_or(0)
            .max(1);
        let top = u128::from(self.0[high]) << 64 | u128::from(self.0[high - 1]);
        (top, 64 * (high as i32 - 1))
    }

    /// The quotient by another that isn't 0, to about 15 digits.
    pub fn ratio(&self, other: &Self) -> f64 {
        let ((top, place), (under, base)) = (self.top(), other.top());
        top as f64 / under as f64 * 2.0_f64.powi(place - base)
    }
}

impl PartialOrd for Whole {
    fn partial_cmp(&self, other: &Self) -> Option<Ordering> {
        Some(self.cmp(other))
    }
}

impl Ord for Whole {
    fn cmp(&self, other: &Self) -> Ordering {
        self.0.iter().rev().cmp(other.0.iter().rev())
    }
}

//! Arithmetic far beyond f64: fixed-point numbers with 256 fraction bits, and squares and fifth
//! powers of whole numbers, to say how far an f64 answer is from the true value.

use std::cmp::Ordering;

const LIMBS: usize = 5;

/// A number from 0 up: four limbs of fraction and one before the point, the lowest first.
#[derive(Clone, Copy, PartialEq, Eq)]
pub struct Fixed([u64; LIMBS]);

impl Fixed {
    pub const ZERO: Self = Self([0; LIMBS]);

    pub fn whole(n: u64) -> Self {
        let mut limbs = [0; LIMBS];
        limbs[LIMBS - 1] = n;
        Self(limbs)
    }

    /// The size of `x`, which must be 0 or lie between 2^-200 and 2^63, exactly.
    pub fn of(x: f64) -> Self {
        if x == 0.0 {
            return Self::ZERO;
        }
        let (mantissa, exponent) = split(x);
        let place = (exponent + 256) as usize;
        let mut limbs = [0; LIMBS + 1];
        let wide = u128::from(mantissa) << (place % 64);
        limbs[place / 64] = wide as u64;
        limbs[place / 64 + 1] = (wide >> 64) as u64;
        let mut cut = [0; LIMBS];
        cut.copy_from_slice(&limbs[..LIMBS]);
        Self(cut)
    }

    pub fn plus(self, other: Self) -> Self {
        let mut sum = [0; LIMBS];
        let mut carry = 0;
        for (i, limb) in sum.iter_mut().enumerate() {
            let wide = u128::from(self.0[i]) + u128::from(other.0[i]) + carry;
            *limb = wide as u64;
            carry = wide >> 64;
        }
        Self(sum)
    }

    /// The difference and whether it is negative.
    pub fn minus(self, other: Self) -> (Self, bool) {
        let (large, small, negative) = match self.compare(other) {
            Ordering::Less => (other, self, true),
            _ => (self, other, false),
        };
        let mut difference = [0; LIMBS];
        let mut borrow = false;
        for (i, limb) in difference.iter_mut().enumerate() {
            let (once, first) = large.0[i].overflowing_sub(small.0[i]);
            let (twice, second) = once.overflowing_sub(u64::from(borrow));
            *limb = twice;
            borrow = first || second;
        }
        (Self(difference), negative)
    }

    pub fn compare(self, other: Self) -> Ordering {
        self.0.iter().rev().cmp(other.0.iter().rev())
    }

    pub fn times(self, other: Self) -> Self {
        let product = product(&self.0, &other.0);
        let mut cut = [0; LIMBS];
        cut.copy_from_slice(&product[LIMBS - 1..2 * LIMBS - 1]);
        Self(cut)
    }

    pub fn times_whole(self, n: u64) -> Self {
        let mut product = [0; LIMBS];
        let mut carry = 0;
        for (limb, factor) in product.iter_mut().zip(self.0) {
            let wide = u128::from(factor) * u128::from(n) + carry;
            *limb = wide as u64;
            carry = wide >> 64;
        }
        Self(product)
    }

    pub fn by_whole(self, n: u64) -> Self {
        let mut quotient = [0; LIMBS];
        let mut rest = 0u128;
        for i in (0..LIMBS).rev() {
            let wide = rest << 64 | u128::from(self.0[i]);
            quotient[i] = (wide / u128::from(n)) as u64;
            rest = wide % u128::from(n);
        }
        Self(quotient)
    }

    /// The number as an f64, off by a few parts in 2^53.
    pub fn rough(self) -> f64 {
        rough(&self.0) * 2.0f64.powi(-256)
    }
}

/// The whole number of limbs, the lowest first, as an f64 that is off by a few parts in 2^53.
fn rough(limbs: &[u64]) -> f64 {
    limbs
        .iter()
        .rev()
        .fold(0.0, |sum, &limb| sum * 2.0f64.powi(64) + limb as f64)
}

fn product(a: &[u64], b: &[u64]) -> Vec<u64> {
    let mut all = vec![0u64; a.len() + b.len()];
    for (i, &x) in a.iter().enumerate() {
        let mut carry = 0;
        for (j, &y) in b.iter().enumerate() {
            let wide = u128::from(x) * u128::from(y) + u128::from(all[i + j]) + carry;
            all[i + j] = wide as u64;
            carry = wide >> 64;
        }
        all[i + b.len()] = carry as u64;
    }
    all
}

/// A finite number's size as a whole number below 2^53 times a power of two.
pub fn split(x: f64) -> (u64, i64) {
    let bits = x.to_bits() & !(1 << 63);
    let fraction = bits & ((1 << 52) - 1);
    match bits >> 52 {
        0 => (fraction, -1074),
        exponent => (fraction | 1 << 52, exponent as i64 - 1075),
    }
}

/// The size of the last place of `x`.
pub fn last_place(x: f64) -> f64 {
    let (_, exponent) = split(x);
    if exponent < -1022 {
        f64::from_bits(1 << (exponent + 1074))
    } else {
        f64::from_bits(((exponent + 1023) as u64) << 52)
    }
}

/// The two constants that the reductions need.
pub struct Constants {
    half_pi: Fixed,
    ln_2: Fixed,
}

impl Constants {
    /// By series of one over a whole number: Machin's for PI, three terms for the logarithm.
    pub fn new() -> Self {
        let arc = |n: u64| odd_series(n, true);
        let area = |n: u64| odd_series(n, false);
        let half_pi = arc(5).times_whole(8).minus(arc(239).times_whole(2)).0;
        let ln_2 = area(26).times_whole(18).plus(area(8749).times_whole(8));
        let ln_2 = ln_2.minus(area(4801).times_whole(2)).0;
        Self { half_pi, ln_2 }
    }
}

/// The sum of (1/n)^i / i over odd i, its signs in turn (the arc tangent) or all plus.
fn odd_series(n: u64, in_turn: bool) -> Fixed {
    let mut power = Fixed::whole(1).by_whole(n);
    let (mut plus, mut minus) = (Fixed::ZERO, Fixed::ZERO);
    let mut i = 1;
    while power != Fixed::ZERO {
        let term = power.by_whole(i);
        if in_turn && i % 4 == 3 {
            minus = minus.plus(term);
        } else {
            plus = plus.plus(term);
        }
        power = power.by_whole(n).by_whole(n);
        i += 2;
    }
    plus.minus(minus).0
}

/// A true value: its size and its sign.
#[derive(Clone, Copy)]
pub struct Truth {
    pub size: Fixed,
    pub negative: bool,
}

impl Truth {
    /// How far `answer` is from the true value.
    pub fn error(self, answer: f64) -> f64 {
        let size = Fixed::of(answer);
        if self.negative == (answer < 0.0) {
            size.minus(self.size).0.rough()
        } else {
            size.plus(self.size).rough()
        }
    }
}

/// The sine and the cosine of `x`, of size at most 2^25 and 0 or at least 2^-100.
pub fn sine_cosine(constants: &Constants, x: f64) -> (Truth, Truth) {
    // The nearest multiple of PI/2; next to a middle either neighbour will do.
    let k = (x.abs() * std::f64::consts::FRAC_2_PI + 0.5).floor() as u64;
    let (r, below) = Fixed::of(x).minus(constants.half_pi.times_whole(k));
    let z = r.times(r);
    let sine = alternating(r, z, 2);
    let cosine = alternating(Fixed::whole(1), z, 1);
    // The quadrants of the size of x; the sine of a negative x turns its sign.
    let (s, c) = ((sine, below), (cosine, false));
    let turn = |(size, negative): (Fixed, bool)| (size, !negative);
    let (s, c) = match k % 4 {
        0 => (s, c),
        1 => (c, turn(s)),
        2 => (turn(s), turn(c)),
        _ => (turn(c), s),
    };
    (
        Truth {
            size: s.0,
            negative: s.1 != (x < 0.0),
        },
        Truth {
            size: c.0,
            negative: c.1,
        },
    )
}

/// first − first·z/(n(n+1)) + .. with n two higher each time.
fn alternating(first: Fixed, z: Fixed, start: u64) -> Fixed {
    let (mut plus, mut minus) = (Fixed::ZERO, Fixed::ZERO);
    let mut term = first;
    let mut n = start;
    let mut even = true;
    while term != Fixed::ZERO {
        if even {
            plus = plus.plus(term);
        } else {
            minus = minus.plus(term);
        }
        term = term.times(z).by_whole(n * (n + 1));
        n += 2;
        even = !even;
    }
    plus.minus(minus).0
}

/// The error of `answer` as e to the power `x` (−700 to 0), in last places of the true value.
pub fn exponential_error(constants: &Constants, x: f64, answer: f64) -> f64 {
    // x = −k·ln 2 + r with r from 0 to ln 2, so that the true value is e^r / 2^k.
    let size = Fixed::of(x);
    let mut k = (-x / std::f64::consts::LN_2).ceil() as u64;
    let (mut r, negative) = constants.ln_2.times_whole(k).minus(size);
    if negative {
        k += 1;
        r = constants.ln_2.times_whole(k).minus(size).0;
    }
    let mut sum = Fixed::ZERO;
    let mut term = Fixed::whole(1);
    let mut n = 1;
    while term != Fixed::ZERO {
        sum = sum.plus(term);
        term = term.times(r).by_whole(n);
        n += 1;
    }
    let scaled = answer * 2.0f64.powi(k as i32 / 2) * 2.0f64.powi(k as i32 - k as i32 / 2);
    Truth {
        size: sum,
        negative: false,
    }
    .error(scaled)
        / last_place(sum.rough())
}

/// The error of `answer` as the root of `x`, in last places.
pub fn root_error(x: f64, answer: f64) -> f64 {
    let ((square, even), (root, exponent)) = (split(x), split(answer));
    let square = (u128::from(square) << (even - 2 * exponent)) as i128;
    let root = i128::from(root);
    ((root * root - square) as f64 / (2 * root) as f64).abs()
}

/// The error of `answer` as `v` to the power 2/5, in last places of the answer; the answer must
/// be right to a few digits.
pub fn two_fifths_error(v: f64, answer: f64) -> f64 {
    let ((v, v_exponent), (y, y_exponent)) = (split(v), split(answer));
    let y2 = product(&[y], &[y]);
    let fifth = product(&product(&y2, &y2), &[y]);
    // The square of v in the same units as the fifth power of the answer.
    let shift = (2 * v_exponent - 5 * y_exponent) as usize;
    let mut power = vec![0u64; shift / 64 + 1];
    power[shift / 64] = 1 << (shift % 64);
    let mut square = product(&product(&[v], &[v]), &power);
    let length = square.len().max(fifth.len());
    square.resize(length, 0);
    let mut fifth = fifth;
    fifth.resize(length, 0);
    let (large, small) = if square.iter().rev().cmp(fifth.iter().rev()) == Ordering::Less {
        (&fifth, &square)
    } else {
        (&square, &fifth)
    };
    let mut difference = vec![0; length];
    let mut borrow = false;
    for (i, limb) in difference.iter_mut().enumerate() {
        let (once, first) = large[i].overflowing_sub(small[i]);
        let (twice, second) = once.overflowing_sub(u64::from(borrow));
        *limb = twice;
        borrow = first || second;
    }
    // y^5 = v^2·(1 + d)^5, so that d is a fifth of the relative difference; y has `y` last places.
    rough(&difference) / rough(&square) / 5.0 * y as f64
}

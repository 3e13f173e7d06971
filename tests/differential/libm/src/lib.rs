//! The elementary functions of the scope document, under the names that the Rust files call.
//!
//! Every operation is rounded once to f64, in the order of the scope document, and each fraction
//! of a series is one division. A NaN's payload is free.

const PI: f64 = f64::from_bits(0x4009_21FB_5444_2D18);
const LN_2: f64 = f64::from_bits(0x3FE6_2E42_FEFA_39EF);
const TWO_BY_PI: f64 = 2.0 / PI;
const ONE_BY_LN_2: f64 = 1.0 / LN_2;

/// The largest size that `sin` and `cos` take, itself taken.
const TRIG_LIMIT: f64 = 33_554_432.0;

/// PI/2 in four pieces, so short that the first products with a quadrant count are exact.
const P1: f64 = 0x192_1FB5_u64 as f64 / (1u128 << 24) as f64;
const P2: f64 = 0x44_42D1_u64 as f64 / (1u128 << 48) as f64;
const P3: f64 = 0x84_6989_u64 as f64 / (1u128 << 72) as f64;
const P4: f64 = 0x8C_C517_u64 as f64 / (1u128 << 96) as f64;

/// The natural logarithm of 2 in two pieces.
const L1: f64 = 0xB172_17F7_u64 as f64 / (1u128 << 32) as f64;
const L2: f64 = 0xD_1CF7_9ABC_9E3B_u64 as f64 / (1u128 << 84) as f64;

/// The fractions of the sine's series from 1/17! (the innermost) to −1/3!.
const SINE: [f64; 8] = [
    1.0 / 355_687_428_096_000.0,
    -1.0 / 1_307_674_368_000.0,
    1.0 / 6_227_020_800.0,
    -1.0 / 39_916_800.0,
    1.0 / 362_880.0,
    -1.0 / 5_040.0,
    1.0 / 120.0,
    -1.0 / 6.0,
];

/// The fractions of the cosine's series from 1/16! (the innermost) to −1/2!.
const COSINE: [f64; 8] = [
    1.0 / 20_922_789_888_000.0,
    -1.0 / 87_178_291_200.0,
    1.0 / 479_001_600.0,
    -1.0 / 3_628_800.0,
    1.0 / 40_320.0,
    -1.0 / 720.0,
    1.0 / 24.0,
    -1.0 / 2.0,
];

/// The fractions of the exponential series from 1/13! (the innermost) to 1/1!.
const EXPONENTIAL: [f64; 13] = [
    1.0 / 6_227_020_800.0,
    1.0 / 479_001_600.0,
    1.0 / 39_916_800.0,
    1.0 / 3_628_800.0,
    1.0 / 362_880.0,
    1.0 / 40_320.0,
    1.0 / 5_040.0,
    1.0 / 720.0,
    1.0 / 120.0,
    1.0 / 24.0,
    1.0 / 6.0,
    1.0 / 2.0,
    1.0,
];

/// 1 + v·(last + v·(.. + v·first)), worked out from the first fraction.
#[inline(always)]
fn nested(fractions: &[f64], v: f64) -> f64 {
    let mut inner = fractions[0];
    for &fraction in &fractions[1..] {
        inner = fraction + v * inner;
    }
    1.0 + v * inner
}

/// The largest whole number not above `x`; zeros keep their sign.
#[inline(never)]
pub fn floor(x: f64) -> f64 {
    x.floor()
}

/// The smallest whole number not below `x`; from −1 to 0 it is −0.
#[inline(never)]
pub fn ceil(x: f64) -> f64 {
    x.ceil()
}

/// `x` with its sign cleared.
#[inline(never)]
pub fn fabs(x: f64) -> f64 {
    f64::from_bits(x.to_bits() & !(1 << 63))
}

/// `x` with its sign cleared, in single precision.
#[inline(never)]
pub fn fabsf(x: f32) -> f32 {
    f32::from_bits(x.to_bits() & !(1 << 31))
}

/// The f64 nearest the exact root, ties to even; zeros to themselves, negatives to NaN.
#[inline(never)]
pub fn sqrt(x: f64) -> f64 {
    x.sqrt()
}

/// The f32 nearest the exact root, ties to even.
#[inline(never)]
pub fn sqrtf(x: f32) -> f32 {
    x.sqrt()
}

/// The quadrant (0 to 3) of `x` and the two series at what is left of it, if `x` is in range.
#[inline(always)]
fn quadrant(x: f64) -> Option<(i64, f64, f64)> {
    if !(-TRIG_LIMIT..=TRIG_LIMIT).contains(&x) {
        return None;
    }
    let k = (x * TWO_BY_PI + 0.5).floor();
    let r = x - k * P1 - k * P2 - k * P3 - k * P4;
    let z = r * r;
    let sine = r * nested(&SINE, z);
    let cosine = nested(&COSINE, z);
    Some(((k as i64).rem_euclid(4), sine, cosine))
}

/// The sine of `x` for sizes up to 2^25, else NaN.
#[inline(never)]
pub fn sin(x: f64) -> f64 {
    match quadrant(x) {
        Some((0, s, _)) => s,
        Some((1, _, c)) => c,
        Some((2, s, _)) => -s,
        Some((_, _, c)) => -c,
        None => f64::NAN,
    }
}

/// The cosine of `x` for sizes up to 2^25, else NaN.
#[inline(never)]
pub fn cos(x: f64) -> f64 {
    match quadrant(x) {
        Some((0, _, c)) => c,
        Some((1, s, _)) => -s,
        Some((2, _, c)) => -c,
        Some((_, s, _)) => s,
        None => f64::NAN,
    }
}

/// e to the power `x` for −700 to 0, 0 below, else NaN.
#[inline(never)]
pub fn exp(x: f64) -> f64 {
    if x < -700.0 {
        return 0.0;
    }
    if !(-700.0..=0.0).contains(&x) {
        return f64::NAN;
    }
    let k = (x * ONE_BY_LN_2 + 0.5).floor();
    let r = x - k * L1 - k * L2;
    // From −700 to 0 the count lies between −1010 and 0, so that 2^k is a normal number.
    let power = f64::from_bits(((k as i64 + 1023) as u64) << 52);
    nested(&EXPONENTIAL, r) * power
}

/// `v` to the power 0.4 for 0 to 29, else NaN: falling Newton steps for y^5 = v^2 from 4.
#[inline(never)]
pub fn pow04(v: f64) -> f64 {
    if !(0.0..=29.0).contains(&v) {
        return f64::NAN;
    }
    if v == 0.0 {
        return 0.0;
    }
    let w = v * v;
    let mut y = 4.0;
    for _ in 0..100 {
        let next = (4.0 * y + w / ((y * y) * (y * y))) / 5.0;
        if next < y {
            y = next;
        } else {
            break;
        }
    }
    y
}

/// `v` to the power 0.4, under the name that the Rust files call; no other exponent is defined.
pub fn pow(v: f64, exponent: f64) -> f64 {
    assert!(exponent == 0.4, "only the power 0.4 is defined");
    pow04(v)
}

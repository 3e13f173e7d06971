//! Wrong functions that the comparison must notice, so that its inputs are shown to tell.

use crate::run::draw::neighbour;

/// A wrong function in place of the one named.
pub struct Fault {
    pub name: &'static str,
    pub what: &'static str,
    pub wrong: fn(f64) -> f64,
}

const TWO_25: f64 = 33_554_432.0;

/// The function only where `taken`, else NaN.
fn limited(x: f64, taken: bool, function: fn(f64) -> f64) -> f64 {
    if taken { function(x) } else { f64::NAN }
}

pub const FAULTS: [Fault; 24] = [
    Fault {
        name: "floor",
        what: "the sign of zero lost",
        wrong: |x| libm::floor(x) + 0.0,
    },
    Fault {
        name: "floor",
        what: "numbers from 2^51 on taken as whole",
        wrong: |x| {
            if x.abs() < 2_251_799_813_685_248.0 {
                libm::floor(x)
            } else {
                x
            }
        },
    },
    Fault {
        name: "floor",
        what: "negative numbers cut towards zero",
        wrong: f64::trunc,
    },
    Fault {
        name: "ceil",
        what: "the sign of zero lost",
        wrong: |x| libm::ceil(x) + 0.0,
    },
    Fault {
        name: "ceil",
        what: "the smallest number lost",
        wrong: |x| {
            if x.abs() < 1e-307 {
                x * 0.0
            } else {
                libm::ceil(x)
            }
        },
    },
    Fault {
        name: "fabs",
        what: "the sign of zero kept",
        wrong: |x| if x < 0.0 { -x } else { x },
    },
    Fault {
        name: "fabs",
        what: "subnormal numbers flushed",
        wrong: |x| if x.is_subnormal() { 0.0 } else { libm::fabs(x) },
    },
    Fault {
        name: "sqrt",
        what: "a subnormal number's root one place off",
        wrong: |x| {
            if x.is_subnormal() {
                neighbour(x.sqrt(), 1)
            } else {
                x.sqrt()
            }
        },
    },
    Fault {
        name: "sqrt",
        what: "roots next to a middle of two numbers one place off",
        wrong: |x| {
            let y = x.sqrt();
            let z = (y + x / y) / 2.0;
            if z > 0.0 && z < f64::INFINITY { z } else { y }
        },
    },
    Fault {
        name: "sqrt",
        what: "the sign of zero lost",
        wrong: |x| x.sqrt() + 0.0,
    },
    Fault {
        name: "sin",
        what: "the limit not taken",
        wrong: |x| limited(x, x.abs() < TWO_25, libm::sin),
    },
    Fault {
        name: "sin",
        what: "the next number after the limit taken",
        wrong: |x| {
            if x == neighbour(TWO_25, 1) {
                0.0
            } else {
                libm::sin(x)
            }
        },
    },
    Fault {
        name: "sin",
        what: "the function of another library",
        wrong: |x| limited(x, x.abs() <= TWO_25, f64::sin),
    },
    Fault {
        name: "cos",
        what: "the limit not taken",
        wrong: |x| limited(x, x.abs() < TWO_25, libm::cos),
    },
    Fault {
        name: "cos",
        what: "the function of another library",
        wrong: |x| limited(x, x.abs() <= TWO_25, f64::cos),
    },
    Fault {
        name: "exp",
        what: "the limit not taken",
        wrong: |x| if x == -700.0 { 0.0 } else { libm::exp(x) },
    },
    Fault {
        name: "exp",
        what: "the number below the limit taken",
        wrong: |x| {
            if x == neighbour(-700.0, -1) {
                x.exp()
            } else {
                libm::exp(x)
            }
        },
    },
    Fault {
        name: "exp",
        what: "no answer at minus infinity",
        wrong: |x| {
            if x.is_infinite() {
                f64::NAN
            } else {
                libm::exp(x)
            }
        },
    },
    Fault {
        name: "exp",
        what: "no answer at 0",
        wrong: |x| limited(x, x < 0.0, libm::exp),
    },
    Fault {
        name: "exp",
        what: "the function of another library",
        wrong: |x| {
            if x < -700.0 {
                0.0
            } else {
                limited(x, x <= 0.0, f64::exp)
            }
        },
    },
    Fault {
        name: "pow04",
        what: "the limit not taken",
        wrong: |v| limited(v, v < 29.0, libm::pow04),
    },
    Fault {
        name: "pow04",
        what: "the sign of zero kept",
        wrong: |v| if v == 0.0 { v } else { libm::pow04(v) },
    },
    Fault {
        name: "pow04",
        what: "tiny numbers answered with 0",
        wrong: |v| {
            if v > 0.0 && v < 1e-160 {
                0.0
            } else {
                libm::pow04(v)
            }
        },
    },
    Fault {
        name: "pow04",
        what: "the function of another library",
        wrong: |v| limited(v, (0.0..=29.0).contains(&v), |v| v.powf(0.4)),
    },
];

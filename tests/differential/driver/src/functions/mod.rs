//! The eight elementary functions, each with its Rust side, its port side and its kind of inputs.

pub mod bench;
pub mod compare;
pub mod faults;
pub mod inputs;

use crate::functions::inputs::Shape;
use crate::run::port;

/// One elementary function on both sides.
#[derive(Clone, Copy)]
pub struct Function {
    pub name: &'static str,
    /// The digit that names it in the list.
    pub digit: u8,
    pub shape: Shape,
    pub rust: fn(f64) -> f64,
    pub port: fn(f64) -> f64,
}

macro_rules! function {
    ($digit:literal $name:ident $shape:ident) => {
        Function {
            name: stringify!($name),
            digit: $digit,
            shape: Shape::$shape,
            rust: libm::$name,
            port: port::$name,
        }
    };
}

pub const FUNCTIONS: [Function; 8] = [
    function!(1 floor Whole),
    function!(2 ceil Whole),
    function!(3 fabs Whole),
    function!(4 sqrt Root),
    function!(5 sin Angle),
    function!(6 cos Angle),
    function!(7 exp Exponent),
    function!(8 pow04 Power),
];

/// Whether two answers are the same: equal bits, or both NaN.
pub fn same(a: f64, b: f64) -> bool {
    a.to_bits() == b.to_bits() || (a.is_nan() && b.is_nan())
}

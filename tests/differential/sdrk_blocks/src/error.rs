//! The errors that design.rs makes.

#[derive(Clone, Copy, Debug, PartialEq)]
pub enum Error {
    InvalidParameter {
        name: &'static str,
        reason: &'static str,
    },
    OutOfRange {
        name: &'static str,
        min: f64,
        max: f64,
        got: f64,
    },
    Core(sdrk_core::Error),
}

pub type Result<T> = core::result::Result<T, Error>;

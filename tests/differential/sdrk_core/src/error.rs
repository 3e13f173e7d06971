//! The errors that the files of sdrk-core make.

#[derive(Clone, Copy, Debug, PartialEq)]
pub enum Error {
    InvalidParameter(&'static str),
    LengthMismatch { expected: usize, got: usize },
    Internal(&'static str),
}

pub type Result<T> = core::result::Result<T, Error>;

//! design.rs of sdrk-blocks, compiled unchanged over stubs, with a way to what it keeps to its crate.

pub mod access;
pub mod error;

include!(concat!(env!("OUT_DIR"), "/top.rs"));

pub use error::{Error, Result};

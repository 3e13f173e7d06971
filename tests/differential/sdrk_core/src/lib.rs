//! num.rs, types.rs, window.rs and channelize.rs of sdrk-core, compiled unchanged over stubs.

pub mod error;
pub mod kernels;
pub mod timing;

include!(concat!(env!("OUT_DIR"), "/top.rs"));

pub use error::{Error, Result};
pub use types::{C32, CQ15, ComplexSample, Q15, RealSample, Sample, SampleType};

//! The kernels: channelize.rs for its four limits and its delay, and what it names of the transform.

pub mod fft;

include!(concat!(env!("OUT_DIR"), "/kernels.rs"));

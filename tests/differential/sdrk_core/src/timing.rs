//! Stubs of the timing types that channelize.rs names; of them only the delay is compared.

use sdrk_device::Ratio;

/// A delay as a fraction of samples.
#[derive(Clone, Copy, Debug, PartialEq, Eq)]
pub struct Delay {
    pub num: u64,
    pub den: u64,
}

impl Delay {
    pub const ZERO: Self = Self { num: 0, den: 1 };

    /// The delay, unless the denominator is 0.
    pub const fn new(num: u64, den: u64) -> Option<Self> {
        if den == 0 {
            None
        } else {
            Some(Self { num, den })
        }
    }
}

/// Samples read and written by one call.
#[derive(Clone, Copy, Debug, PartialEq, Eq)]
pub struct Progress {
    pub consumed: usize,
    pub produced: usize,
}

/// The rate change and the delay of a kernel.
pub trait Timing {
    fn ratio(&self) -> Ratio;
    fn group_delay(&self) -> Delay;
}

//! A stub of `sdrk_device`: the ratio that channelize.rs names and that no comparison uses.

/// A ratio of two counts.
#[derive(Clone, Copy, Debug, PartialEq, Eq)]
pub struct Ratio {
    pub num: u64,
    pub den: u64,
}

impl Ratio {
    pub const ONE: Self = Self { num: 1, den: 1 };

    /// The ratio, unless the denominator is 0.
    pub const fn new(num: u64, den: u64) -> Option<Self> {
        if den == 0 {
            None
        } else {
            Some(Self { num, den })
        }
    }
}

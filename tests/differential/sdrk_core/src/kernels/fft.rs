//! Stubs of the transform that channelize.rs names; no comparison runs one.

use core::marker::PhantomData;

use num_complex::Complex64;

use crate::error::{Error, Result};

#[derive(Clone, Copy, Debug, PartialEq, Eq)]
pub enum Direction {
    Forward,
}

#[derive(Clone, Copy, Debug, PartialEq, Eq)]
pub enum Scaling {
    Default,
}

/// A plan by its fields, with no table worked out.
#[derive(Clone, Debug)]
pub struct FftPlan<T, Tw> {
    pub n: usize,
    pub log2n: u32,
    pub twiddles: Tw,
    pub tw_stride: usize,
    pub _sample: PhantomData<fn() -> T>,
}

impl<T, Tw: AsRef<[T]>> FftPlan<T, Tw> {
    /// A plan that transforms nothing: a channelizer can be made with it and asked for its delay.
    pub fn new(n: usize, twiddles: Tw) -> Result<Self> {
        Ok(Self {
            n,
            log2n: n.trailing_zeros(),
            twiddles,
            tw_stride: 1,
            _sample: PhantomData,
        })
    }

    #[allow(clippy::len_without_is_empty)]
    pub fn len(&self) -> usize {
        self.n
    }

    pub fn twiddles(&self) -> &[T] {
        self.twiddles.as_ref()
    }
}

pub trait Fft<T> {
    fn fft<Tw: AsRef<[T]>>(
        &self,
        plan: &FftPlan<T, Tw>,
        data: &mut [T],
        direction: Direction,
        scaling: Scaling,
    ) -> Result<()>;
}

/// The stub has no sizes.
pub fn log2_of(_n: usize) -> Result<u32> {
    Err(Error::Internal("a stub"))
}

/// The stub has no twiddles.
pub fn twiddle_f64(_k: usize, _n: usize) -> Complex64 {
    Complex64::new(f64::NAN, f64::NAN)
}

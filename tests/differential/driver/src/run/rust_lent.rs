//! What the Rust is lent: elements of any format, full of random bits.

use sdrk_core::Q15;

use crate::run::random::Random;

/// An element of a buffer, known by its bits.
pub trait Element: Copy {
    /// The element of the lowest of the bits.
    fn of(bits: u64) -> Self;
    fn bits(self) -> u64;
}

impl Element for f64 {
    fn of(bits: u64) -> Self {
        Self::from_bits(bits)
    }

    fn bits(self) -> u64 {
        self.to_bits()
    }
}

impl Element for f32 {
    fn of(bits: u64) -> Self {
        Self::from_bits(bits as u32)
    }

    fn bits(self) -> u64 {
        u64::from(self.to_bits())
    }
}

impl Element for i16 {
    fn of(bits: u64) -> Self {
        bits as Self
    }

    fn bits(self) -> u64 {
        u64::from(self as u16)
    }
}

impl Element for Q15 {
    fn of(bits: u64) -> Self {
        Self(i16::of(bits))
    }

    fn bits(self) -> u64 {
        self.0.bits()
    }
}

/// The elements that come in a buffer of that many.
fn coming<E: Element>(count: usize) -> impl Iterator<Item = E> {
    let mut random = Random::new(count as u64);
    (0..count).map(move |_| E::of(random.bits()))
}

/// That many elements full of random bits.
pub fn elements<E: Element>(count: u64) -> Vec<E> {
    coming(count as usize).collect()
}

/// Whether the elements from `written` on are as they came.
pub fn left<E: Element>(elements: &[E], written: usize) -> bool {
    let came = coming::<E>(elements.len()).map(E::bits);
    let now = elements.iter().copied().map(E::bits);
    now.skip(written).eq(came.skip(written))
}

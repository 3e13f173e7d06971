//! A stub of `num_complex`: the complex pair and its two aliases, as far as the Rust files name them.

/// A complex number by its two components.
#[derive(Clone, Copy, Debug, Default, PartialEq)]
#[repr(C)]
pub struct Complex<T> {
    pub re: T,
    pub im: T,
}

impl<T> Complex<T> {
    pub const fn new(re: T, im: T) -> Self {
        Self { re, im }
    }
}

pub type Complex32 = Complex<f32>;
pub type Complex64 = Complex<f64>;

// The sample trait asks that the complex sample be plain data.
unsafe impl bytemuck::Zeroable for Complex<f32> {}
unsafe impl bytemuck::Pod for Complex<f32> {}

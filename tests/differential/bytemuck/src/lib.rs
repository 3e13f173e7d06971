//! A stub of `bytemuck`: the two marker traits and their derives, as far as the Rust files name them.

pub use bytemuck_derive::{Pod, Zeroable};

/// A type whose all-zero bytes are a value.
///
/// # Safety
/// The bytes zero must be a value of the type.
pub unsafe trait Zeroable: Sized {}

/// A type of which any bytes are a value.
///
/// # Safety
/// Every pattern of bytes must be a value of the type, with no padding.
pub unsafe trait Pod: Zeroable + Copy + 'static {}

unsafe impl Zeroable for f32 {}
unsafe impl Pod for f32 {}

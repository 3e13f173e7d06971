//! Times the functions on both sides, on the same inputs.

use std::hint::black_box;
use std::time::Instant;

use crate::functions::FUNCTIONS;
use crate::functions::inputs;
use crate::run::bench::rounds;
use crate::run::random::Random;

const INPUTS: usize = 4096;

/// The nanoseconds of one call, over one pass through the inputs.
fn pass(function: fn(f64) -> f64, inputs: &[f64]) -> f64 {
    let start = Instant::now();
    for &x in inputs {
        black_box(function(black_box(x)));
    }
    start.elapsed().as_nanos() as f64 / inputs.len() as f64
}

/// Prints for each function the median over the rounds on both sides, and their ratio.
pub fn run() {
    for function in &FUNCTIONS {
        let mut random = Random::new(u64::from(function.digit));
        let inputs: Vec<f64> = (0..INPUTS)
            .map(|_| inputs::inside(function.shape, &mut random))
            .collect();
        let side = black_box(function.port);
        let rust = black_box(function.rust);
        let (port, rust) = rounds(|| pass(side, &inputs), || pass(rust, &inputs));
        println!(
            "{:<6} port {port:8.1} ns  rust {rust:8.1} ns  ratio {:.2}",
            function.name,
            port / rust,
        );
    }
}

//! What the timings share, and all of them: both sides on the same inputs, in alternate rounds of one run.

use std::hint::black_box;
use std::time::Instant;

use crate::{
    card, channelizer, formats, functions, gaussian, halfband, lowpass, retune, rrc, sections,
    spec, windows,
};

const ROUNDS: usize = 101;

/// How many elements a pass makes at least, so that short designs are repeated.
const PASS_ELEMENTS: usize = 8192;

/// The beta of 60 dB.
pub const BETA: f64 = 5.65326;

/// The cutoffs of low-passes and sections.
pub const CUTOFFS: [f64; 4] = [0.05, 0.1, 0.21, 0.3];

/// The microseconds of one call, over one pass through the numbers, again and again; a call tells
/// whether it was accepted.
pub fn pass<T: Copy>(numbers: &[T], elements: usize, mut call: impl FnMut(T) -> bool) -> f64 {
    let times = PASS_ELEMENTS.div_ceil(elements * numbers.len());
    let start = Instant::now();
    for _ in 0..times {
        for &number in numbers {
            assert!(call(black_box(number)), "the ticket is refused");
        }
    }
    start.elapsed().as_nanos() as f64 / 1000.0 / (times * numbers.len()) as f64
}

/// Prints the line of a kind: how many elements of what sort, and the times of both sides.
pub fn print(name: &str, count: usize, what: &str, (port, rust): (f64, f64)) {
    println!(
        "{name:<24} {count:4} {what:<8}  port {port:8.3} us  rust {rust:8.3} us  ratio {:.2}",
        port / rust,
    );
}

/// Times one kind of design with buffers of that many elements, and prints a line; one of its
/// arguments runs through the numbers.
pub fn time_design(
    name: &str,
    (count, what): (usize, &str),
    numbers: &[f64],
    port: impl Fn(f64, &mut [u8]) -> bool,
    rust: impl Fn(f64, &mut [f64]) -> bool,
) {
    let mut bytes = vec![0; 8 * count];
    let mut floats = vec![0.0; count];
    let times = rounds(
        || pass(numbers, count, |number| port(number, black_box(&mut bytes))),
        || {
            pass(numbers, count, |number| {
                rust(number, black_box(&mut floats))
            })
        },
    );
    print(name, count, what, times);
}

pub fn median(times: &mut [f64]) -> f64 {
    times.sort_by(f64::total_cmp);
    times[times.len() / 2]
}

/// The times of the rounds, in which the passes take turns; each gives its time.
pub fn times<const N: usize>(mut passes: [&mut dyn FnMut() -> f64; N]) -> [Vec<f64>; N] {
    // The first pass warms the caches and isn't counted.
    for pass in &mut passes {
        pass();
    }
    let mut times = [const { Vec::new() }; N];
    for _ in 0..ROUNDS {
        for (pass, times) in passes.iter_mut().zip(&mut times) {
            times.push(pass());
        }
    }
    times
}

/// The medians of the two sides.
pub fn rounds(mut port: impl FnMut() -> f64, mut rust: impl FnMut() -> f64) -> (f64, f64) {
    let [port, rust] = times([&mut port, &mut rust]).map(|mut times| median(&mut times));
    (port, rust)
}

/// Prints for each function, kind of design, conversion and window the median over the rounds on both sides, and
/// their ratio; last how fast a card is read and its tickets written.
pub fn run() {
    functions::bench::run();
    println!("designs, into buffers that are not cleared between rounds:");
    lowpass::bench::run();
    retune::bench::run();
    spec::bench::run();
    halfband::bench::run();
    gaussian::bench::run();
    rrc::bench::run();
    channelizer::bench::run();
    sections::bench::run();
    formats::bench::run();
    windows::bench::run();
    card::bench::run();
}

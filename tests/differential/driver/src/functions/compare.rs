//! Runs the eight functions on both sides over the same inputs and counts what differs by bits.

use crate::functions::faults::FAULTS;
use crate::functions::inputs;
use crate::functions::{FUNCTIONS, Function, same};
use crate::run::random::Random;

/// How many differing inputs are shown for each function.
const SHOWN: u64 = 8;

/// How many inputs a planted fault gets.
const FAULT_COUNT: u64 = 400_000;

/// What the comparison of one function has counted so far.
#[derive(Clone, Copy, Default)]
pub struct Tally {
    pub compared: u64,
    pub differ: u64,
    pub nan: u64,
}

impl Tally {
    /// Compares an input; the Rust's answer and the port's, if they differ.
    pub fn judge(&mut self, function: &Function, x: f64) -> Option<[f64; 2]> {
        let rust = (function.rust)(x);
        let port = (function.port)(x);
        self.compared += 1;
        self.nan += u64::from(rust.is_nan());
        if same(rust, port) {
            return None;
        }
        self.differ += 1;
        Some([rust, port])
    }

    fn compare(&mut self, function: &Function, x: f64, shown: u64) {
        if let Some(answers) = self.judge(function, x)
            && self.differ <= shown
        {
            println!("{}", told(function, x, answers));
        }
    }

    pub fn print(&self, name: &str) {
        println!(
            "{name}: {} compared, {} differ ({} answers NaN)",
            self.compared, self.differ, self.nan,
        );
    }
}

/// An input and both answers, in words.
pub fn told(function: &Function, x: f64, [rust, port]: [f64; 2]) -> String {
    format!(
        "  {}({:016X} = {x:?}): Rust {:016X} = {rust:?}, port {:016X} = {port:?}",
        function.name,
        x.to_bits(),
        rust.to_bits(),
        port.to_bits(),
    )
}

/// Compares one function on at least `count` inputs, showing the first that differ.
fn compare(function: &Function, count: u64, seed: u64, shown: u64) -> Tally {
    let mut random = Random::new(seed ^ u64::from(function.digit) << 56);
    let mut tally = Tally::default();
    for x in inputs::regular(function.shape) {
        tally.compare(function, x, shown);
    }
    while tally.compared < count {
        tally.compare(function, inputs::draw(function.shape, &mut random), shown);
    }
    tally
}

/// Puts wrong functions in the port's place; how many were noticed, and of how many.
pub fn run_faults(seed: u64) -> (usize, usize) {
    let mut noticed = 0;
    for fault in &FAULTS {
        for function in FUNCTIONS
            .iter()
            .filter(|function| function.name == fault.name)
        {
            let wrong = Function {
                port: fault.wrong,
                ..*function
            };
            if compare(&wrong, FAULT_COUNT, seed, 0).differ == 0 {
                println!("  not noticed: {} with {}", fault.name, fault.what);
            } else {
                noticed += 1;
            }
        }
    }
    (noticed, FAULTS.len())
}

/// Compares each function on at least `count` inputs; true if none differs.
pub fn run(count: u64, seed: u64) -> bool {
    let mut equal = true;
    for function in &FUNCTIONS {
        let tally = compare(function, count, seed, SHOWN);
        tally.print(function.name);
        equal &= tally.differ == 0;
    }
    equal
}

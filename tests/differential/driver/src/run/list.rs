//! Prints a sample of the Rust side's answers as lines of words; the port has no part in it.

use std::collections::HashSet;

use crate::functions;
use crate::functions::FUNCTIONS;
use crate::run::designers::{self, Answer};
use crate::run::inputs;
use crate::run::kinds::{About, kinds};
use crate::run::random::Random;
use crate::run::report::{bits, single_bits};
use crate::run::tickets::{Kind, Ticket};
use crate::sections::odd;
use crate::windows::gain;

const SEED: u64 = 0x0123_4567_89AB_CDEF;

/// The most elements that a line can have, in what is written or in a source, and the longest
/// buffer in bytes that it can ask for: up to the kind 31, and from 32 on.
const LINE: (usize, u64) = (32, 4096);
const SHORT_LINE: (usize, u64) = (20, 200);

/// Prints about `count` lines for each function: the telling inputs, then random ones.
pub fn run(count: usize) {
    for function in &FUNCTIONS {
        let mut random = Random::new(SEED ^ u64::from(function.digit) << 56);
        let mut seen = HashSet::new();
        let mut line = |x: f64| {
            let new = seen.insert(bits(x));
            if new {
                println!(
                    "{} {:016X} {:016X}",
                    function.digit,
                    bits(x),
                    bits((function.rust)(x))
                );
            }
            new
        };
        let mut lines = 0;
        for x in functions::inputs::telling(function.shape) {
            lines += usize::from(line(x));
        }
        while lines < count {
            lines += usize::from(line(functions::inputs::own(function.shape, &mut random)));
        }
    }
}

/// A Q15 or Q14 number by its 16 bits, as it stands in a buffer.
fn fixed_word(number: i16) -> u64 {
    u64::from(number as u16)
}

/// Whether the ticket's line is short enough.
fn fits(about: &About, ticket: &Ticket, answer: &Answer) -> bool {
    let (elements, bytes) = if about.number > 31 { SHORT_LINE } else { LINE };
    let source = ticket.source().map_or(0, |source| source.elements.len());
    let samples = ticket.samples().map_or(0, |samples| samples.elements.len());
    let written = [
        &answer.taps.len(),
        &answer.fixed.len(),
        &answer.singles.len(),
    ];
    written
        .into_iter()
        .chain([&source, &samples])
        .all(|&count| count <= elements)
        && ticket.bytes() <= bytes
}

/// The words of a ticket's line, the arguments and then the answer; or nothing if it is too long, or
/// if the answer isn't the Rust's.
fn words(about: &About, ticket: &Ticket) -> Option<Vec<u64>> {
    let answer = designers::rust(ticket);
    let report = answer.report;
    if odd::answers(ticket) || report.number == 16 {
        return None;
    }
    let mut words = ticket.words();
    match about.kind {
        Kind::KaiserBeta => words.push(bits(report.value)),
        Kind::Q15FromF64 => words.push(fixed_word(report.value as i16)),
        Kind::WindowGain => words.extend(gain::words(&report)),
        _ => words.extend(report.words()),
    }
    words.extend(answer.taps.iter().map(|&tap| bits(tap)));
    words.extend(answer.fixed.iter().map(|&number| fixed_word(number)));
    words.extend(answer.singles.iter().map(|&sample| single_bits(sample)));
    fits(about, ticket, &answer).then_some(words)
}

/// Prints about `count` lines for each kind of tickets: telling ones, then random ones.
pub fn run_tickets(count: usize) {
    for about in kinds() {
        let mut random = Random::new(SEED ^ u64::from(about.number) << 56);
        let mut seen = HashSet::new();
        let telling = inputs::telling(about.kind);
        // At least a quarter of the lines are random.
        let mut tickets: Vec<Ticket> = telling.into_iter().take(count * 3 / 4).collect();
        tickets.reverse();
        while seen.len() < count {
            let ticket = tickets
                .pop()
                .unwrap_or_else(|| inputs::draw(about.kind, &mut random));
            let Some(words) = words(about, &ticket) else {
                continue;
            };
            let line: String = words.iter().map(|word| format!(" {word:016X}")).collect();
            if seen.insert(line.clone()) {
                println!("{}{line}", about.number);
            }
        }
    }
}

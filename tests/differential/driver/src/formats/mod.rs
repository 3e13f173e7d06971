//! Conversions to other formats: what the two sides' answers to Q15, Q14 and f32 share.

pub mod bench;
pub mod cases;
pub mod lengths;
pub mod q14;
pub mod q15;
pub mod singles;

use sdrk_blocks::Result;

use crate::run::designers::refusal;
use crate::run::lent::Lent;
use crate::run::report::Report;
use crate::run::rust_lent::{Element, elements, left};
use crate::run::tickets::Source;

/// The refusal of lengths that the Rust can't be asked with, by the scope document: the source's
/// bytes, the destination's, a source that isn't whole groups, a destination that isn't.
fn lengths_refused(source: &Source, bytes: u64, width: u64, group: u64) -> Option<Report> {
    let count = source.elements.len() as u64;
    let given = bytes / width;
    if source.rest > 0 {
        Some(Report::length(8 * count, source.length()))
    } else if !bytes.is_multiple_of(width) {
        Some(Report::length(bytes - bytes % width, bytes))
    } else if !count.is_multiple_of(group) {
        Some(Report::length(count - count % group, count))
    } else if !given.is_multiple_of(group) {
        Some(Report::length(count, given))
    } else {
        None
    }
}

/// The Rust's conversion into a buffer of that many elements full of random bits: the report, and
/// what it has written. Lengths that it refuses are counted in groups. An 11 has the index of the
/// first element that isn't taken alone, which is from the scope document.
fn converted<E: Element>(
    source: &Source,
    count: u64,
    group: u64,
    convert: impl FnOnce(&mut [E]) -> Result<()>,
    taken: fn(f64) -> bool,
) -> (Report, Vec<E>) {
    let mut numbers = elements(count);
    let (report, written) = match convert(&mut numbers) {
        Ok(()) => (Report::accepted(count, 0.0), numbers.len()),
        Err(error) => {
            let report = refusal(error);
            let untaken = |&x: &f64| !taken(x);
            match (report.number, source.elements.iter().position(untaken)) {
                (8, _) => {
                    let [expected, given] = [report.expected, report.given];
                    (Report::length(group * expected, group * given), 0)
                }
                (11, Some(place)) => {
                    let index = place as u64;
                    (Report { index, ..report }, place)
                }
                _ => panic!("the Rust refuses what it takes: {report:?}"),
            }
        }
    };
    assert!(
        left(&numbers, written),
        "the Rust wrote after the element that it refused"
    );
    numbers.truncate(written);
    (report, numbers)
}

/// The port's conversion by one of its functions; its source is lent too, at any alignment and
/// between guards.
pub fn port(source: &Source, buffer: &mut [u8], convert: fn(&[u8], &mut [u8]) -> Report) -> Report {
    let seed = source.elements.len() as u64 + source.length() + 3 * buffer.len() as u64;
    let mut lent = Lent::new(source.length(), seed.wrapping_add(source.shift));
    let bytes = source.elements.iter().map(|x| x.to_le_bytes());
    for (place, element) in lent.part().chunks_exact_mut(8).zip(bytes) {
        place.copy_from_slice(&element);
    }
    let report = convert(lent.part(), buffer);
    let same = |bytes, x: &f64| bytes == x.to_le_bytes();
    assert!(
        lent.begins(source.elements.iter(), same),
        "the port wrote its source"
    );
    report
}

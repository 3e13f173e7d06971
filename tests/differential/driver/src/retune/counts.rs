//! How many answers of one sort were compared, accepted and found to differ, and which refusals were met.

use std::collections::BTreeMap;

use crate::run::report::{CARRIES, Report};

/// A refusal by its number and what it carries; the two lengths are told apart.
pub type Refusal = (u32, &'static str);

pub const IN_BYTES: Refusal = (8, "length in bytes");
pub const IN_TAPS: Refusal = (8, "length in taps");

#[derive(Default)]
pub struct Counts {
    pub compared: u64,
    pub accepted: u64,
    pub differ: u64,
    refused: BTreeMap<Refusal, u64>,
}

impl Counts {
    /// Counts what was expected for a buffer of so many bytes, and whether it was answered.
    pub fn count(&mut self, report: &Report, bytes: u64, same: bool) {
        self.compared += 1;
        self.differ += u64::from(!same);
        let refusal = match report.number {
            0 => {
                self.accepted += 1;
                return;
            }
            8 if bytes.is_multiple_of(8) => IN_TAPS,
            8 => IN_BYTES,
            number => (number, CARRIES[report.carries as usize]),
        };
        *self.refused.entry(refusal).or_default() += 1;
    }

    /// The figures, as `accepted, differ; number: how many with what they carry`.
    pub fn table(&self) -> String {
        let mut text = format!("{} accepted, {} differ", self.accepted, self.differ);
        let mut last = 0;
        for (&(number, carried), times) in &self.refused {
            text += &if number == last {
                format!(", {times} {carried}")
            } else {
                format!("; {number}: {times} {carried}")
            };
            last = number;
        }
        text
    }

    /// Tells which of the refusals that can occur was never met, and which was met and can't; true if there is none,
    /// and nothing differs.
    pub fn complete(&self, name: &str, refusals: &[Refusal]) -> bool {
        let met = |refusal: &&Refusal| self.refused.contains_key(refusal);
        let missed: Vec<&Refusal> = refusals.iter().filter(|refusal| !met(refusal)).collect();
        for (number, carried) in &missed {
            println!("{name}: {number} {carried} never met");
        }
        let unforeseen: Vec<&Refusal> = self
            .refused
            .keys()
            .filter(|refusal| !refusals.contains(refusal))
            .collect();
        for (number, carried) in &unforeseen {
            println!("{name}: {number} {carried} met, which can't be given");
        }
        if self.accepted == 0 {
            println!("{name}: an accepted one never met");
        }
        missed.is_empty() && unforeseen.is_empty() && self.accepted > 0 && self.differ == 0
    }
}

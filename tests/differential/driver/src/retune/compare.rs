//! Runs lists of turns on a kept record, and turns of forged records, and compares every step with its model.

use crate::kaiser::settling::{is_settled, series};
use crate::retune::counts::{Counts, IN_BYTES, IN_TAPS, Refusal};
use crate::retune::faults::{FAULTS, Fault, RIGHT};
use crate::retune::inputs::{self, List, Step};
use crate::retune::{Design, Expected, Model, PORT, Past, Side, Tuned, Turn, forged, same_record};
use crate::run::compare::{SHOWN, holds};
use crate::run::lent::Lent;
use crate::run::random::Random;
use crate::run::report::Report;
use crate::run::tickets::Band;

/// One turn is compared for so many tickets, and one of a forged record for so many turns.
const TICKETS_A_TURN: u64 = 19;
const TURNS_A_FORGED: u64 = 11;

/// How many turns of forged records there are at least: there are no telling ones.
const LEAST_FORGED: u64 = 2000;

/// How many random turns a planted fault gets at most.
const FAULT_COUNT: u64 = 20_000;

/// What a first design can be refused with, a turn, and a turn of a forged record.
const OF_DESIGNS: [Refusal; 8] = [
    (1, "plain"),
    (2, "range"),
    (4, "plain"),
    (6, "plain"),
    (7, "plain"),
    IN_BYTES,
    (10, "plain"),
    (16, "plain"),
];
const OF_TURNS: [Refusal; 8] = [
    (1, "plain"),
    (2, "range"),
    (4, "plain"),
    (7, "plain"),
    IN_BYTES,
    IN_TAPS,
    (10, "plain"),
    (16, "plain"),
];
const OF_FORGED: [Refusal; 9] = [
    (1, "plain"),
    (2, "range"),
    (4, "plain"),
    (6, "plain"),
    (7, "plain"),
    IN_BYTES,
    IN_TAPS,
    (10, "plain"),
    (16, "plain"),
];

/// A step and what it came to.
struct Seen<'a> {
    step: &'a Step,
    report: Report,
    /// What was kept before it.
    before: Model,
    /// The record after it.
    after: Design,
    /// The turn before it, and the number that it came to.
    last: Option<(Turn, u32)>,
}

impl Seen<'_> {
    fn accepts(&self) -> bool {
        self.report.is_accepted()
    }

    fn is_beta(&self, holds: impl FnOnce(f64) -> bool) -> bool {
        matches!(self.step.turn, Turn::Beta { beta } if holds(beta))
    }

    fn is_cutoff(&self, holds: impl FnOnce(f64, f64) -> bool) -> bool {
        matches!(self.step.turn, Turn::Cutoff { cutoff, rate } if holds(cutoff, rate))
    }

    /// Whether it is a new beta that is taken as such, and the series there doesn't settle.
    fn is_unsettled(&self) -> bool {
        self.is_beta(|beta| beta > 0.0 && beta.is_finite() && !is_settled(beta))
    }
}

/// A case that the lists must meet and that a refusal's number doesn't tell apart.
struct Case {
    what: &'static str,
    met: fn(&Seen) -> bool,
}

const CASES: [Case; 15] = [
    Case {
        what: "new cutoffs taken",
        met: |seen| seen.accepts() && seen.is_cutoff(|_, _| true),
    },
    Case {
        what: "new betas taken",
        met: |seen| seen.accepts() && seen.is_beta(|_| true),
    },
    Case {
        what: "turns taken right after a refused one",
        met: |seen| seen.accepts() && matches!(seen.last, Some((_, 1..))),
    },
    Case {
        what: "new cutoffs taken right after a new beta",
        met: |seen| {
            seen.accepts()
                && seen.is_cutoff(|_, _| true)
                && matches!(seen.last, Some((Turn::Beta { .. }, 0)))
        },
    },
    Case {
        what: "turns to one tap whose series is infinite",
        met: |seen| seen.accepts() && seen.before.taps == 1 && seen.after.series == f64::INFINITY,
    },
    Case {
        what: "betas of -0 kept",
        met: |seen| seen.accepts() && seen.is_beta(|beta| beta.to_bits() == 1 << 63),
    },
    Case {
        what: "cutoffs whose quotient is 0",
        met: |seen| {
            seen.report.number == 2
                && seen.is_cutoff(|cutoff, rate| cutoff > 0.0 && cutoff / rate == 0.0)
        },
    },
    Case {
        what: "betas above 713 taken",
        met: |seen| seen.accepts() && seen.before.taps > 1 && seen.is_beta(|beta| beta > 713.0),
    },
    Case {
        what: "refusals 16 after fewer than 500 terms",
        met: |seen| seen.report.number == 16 && seen.is_beta(|beta| series(beta).terms < 500),
    },
    Case {
        what: "refusals 16 before a sum of 0",
        met: |seen| seen.report.number == 16 && seen.before.taps == 2,
    },
    Case {
        what: "turns taken right after a refusal 16",
        met: |seen| seen.accepts() && matches!(seen.last, Some((_, 16))),
    },
    Case {
        what: "refusals 8 of a beta that doesn't settle",
        met: |seen| seen.report.number == 8 && seen.is_unsettled(),
    },
    Case {
        what: "refusals 7 of a beta that doesn't settle",
        met: |seen| seen.report.number == 7 && seen.is_unsettled(),
    },
    Case {
        what: "refusals 7 of a beta that is no good",
        met: |seen| seen.report.number == 7 && seen.is_beta(|beta| beta.is_nan() || beta < 0.0),
    },
    Case {
        what: "refusals 7 with a wrong length",
        met: |seen| seen.report.number == 7 && seen.step.bytes != 8 * seen.before.taps,
    },
];

/// What the comparison has counted so far.
#[derive(Default)]
struct Tally {
    designs: Counts,
    turns: Counts,
    forged: Counts,
    /// How often each case was met.
    cases: [u64; CASES.len()],
    /// How many buffers were lent.
    lent: u64,
    /// How many of those that differ are shown.
    shown: u64,
}

impl Tally {
    fn showing(shown: u64) -> Self {
        Self {
            shown,
            ..Self::default()
        }
    }

    fn differ(&self) -> u64 {
        self.designs.differ + self.turns.differ + self.forged.differ
    }

    /// Lends a buffer and asks a side; its answer, and whether report, bytes and record are as expected. What differs
    /// is shown with what was asked.
    fn asked(
        &mut self,
        expected: &Expected,
        bytes: u64,
        ask: impl FnOnce(&mut [u8]) -> Tuned,
        told: impl FnOnce() -> String,
    ) -> (Tuned, bool) {
        let mut buffer = Lent::new(bytes, self.lent);
        self.lent += 1;
        let tuned = ask(buffer.part());
        let same =
            expected.report().same(&tuned.report) && same_record(&expected.design, &tuned.design);
        let held = holds(&buffer, &expected.answer);
        if !(same && held) && self.differ() < self.shown {
            let buffer = if held { "as expected" } else { "another" };
            println!("  {}", told());
            println!("    model {:?}, {:?}", expected.report(), expected.design);
            println!(
                "    port {:?}, {:?}; buffer {buffer}",
                tuned.report, tuned.design
            );
        }
        (tuned, same && held)
    }

    /// Runs a list on the record that the side gives, until a step differs: what follows it would for its sake.
    fn list(&mut self, side: &Side, list: &List) {
        let (expected, model) = Model::first(&list.band, list.bytes);
        let told = || format!("{:?} in {} bytes", list.band, list.bytes);
        let ask = |out: &mut [u8]| (side.design)(&list.band, out);
        let (tuned, same) = self.asked(&expected, list.bytes, ask, told);
        self.designs.count(&expected.report(), list.bytes, same);
        let Some(mut model) = model.filter(|_| same) else {
            return;
        };
        let mut design = tuned.design;
        let mut last = None;
        for (i, step) in list.steps.iter().enumerate() {
            let before = model;
            let expected = model.turn(&step.turn, step.bytes);
            let report = expected.report();
            let past = Past {
                design,
                first: list.band,
                last: before.band,
            };
            let told = || format!("{:?}, turn {i}: {step:?} of {before:?}", list.band);
            let ask = |out: &mut [u8]| (side.turn)(&past, &step.turn, out);
            let (tuned, same) = self.asked(&expected, step.bytes, ask, told);
            self.turns.count(&report, step.bytes, same);
            let seen = Seen {
                step,
                report,
                before,
                after: expected.design,
                last,
            };
            for (times, case) in self.cases.iter_mut().zip(&CASES) {
                *times += u64::from((case.met)(&seen));
            }
            if !same {
                return;
            }
            design = tuned.design;
            last = Some((step.turn, report.number));
        }
    }

    /// A turn of a forged record.
    fn forged(&mut self, side: &Side, random: &mut Random) {
        let (design, turn, bytes) = forged::draw(random);
        let said = Band {
            cutoff: design.fraction,
            rate: 1.0,
            window: design.window,
            beta: design.beta,
        };
        let past = Past {
            design,
            first: said,
            last: said,
        };
        let expected = forged::expected(&design, &turn, bytes);
        let told = || format!("{turn:?} in {bytes} bytes of the forged {design:?}");
        let ask = |out: &mut [u8]| (side.turn)(&past, &turn, out);
        let (_, same) = self.asked(&expected, bytes, ask, told);
        self.forged.count(&expected.report(), bytes, same);
    }

    /// Runs the telling lists and random ones, until so many turns are compared or one differs where it may end there.
    fn lists(&mut self, side: &Side, count: u64, seed: u64, ends: bool) {
        let mut random = Random::new(seed ^ 100 << 56);
        let mut telling = inputs::telling().into_iter().peekable();
        while (telling.peek().is_some() || self.turns.compared < count)
            && !(ends && self.differ() > 0)
        {
            let list = telling.next().unwrap_or_else(|| inputs::draw(&mut random));
            self.list(side, &list);
        }
    }

    /// The same with forged records.
    fn forgeries(&mut self, side: &Side, count: u64, seed: u64, ends: bool) {
        let mut random = Random::new(seed ^ 101 << 56);
        while self.forged.compared < count && !(ends && self.differ() > 0) {
            self.forged(side, &mut random);
        }
    }

    /// Tells the cases that were never met; true if there is none.
    fn cases_met(&self) -> bool {
        let missed = || {
            self.cases
                .iter()
                .zip(&CASES)
                .filter(|(times, _)| **times == 0)
        };
        for (_, case) in missed() {
            println!("retune: {} never met", case.what);
        }
        missed().count() == 0
    }
}

/// Whether a wrong side is noticed where it has to be: by the lists, or by the forged records.
fn notices(fault: &Fault, seed: u64) -> bool {
    let mut tally = Tally::default();
    if fault.forged {
        tally.forgeries(&fault.wrong, FAULT_COUNT, seed, true);
    } else {
        tally.lists(&fault.wrong, FAULT_COUNT, seed, true);
    }
    tally.differ() > 0
}

/// Puts wrong sides in the port's place; how many were noticed, and of how many. The right one must not be.
pub fn run_faults(seed: u64) -> (usize, usize) {
    let mut noticed = 0;
    for fault in FAULTS.iter().copied().flatten() {
        if notices(fault, seed) {
            noticed += 1;
        } else {
            println!("  not noticed: retune with {}", fault.what);
        }
    }
    let mut tally = Tally::showing(SHOWN);
    tally.lists(&RIGHT, FAULT_COUNT, seed, true);
    tally.forgeries(&RIGHT, FAULT_COUNT, seed, true);
    if tally.differ() > 0 {
        println!("  noticed: retune with nothing wrong");
        noticed = 0;
    }
    (noticed, FAULTS.iter().map(|faults| faults.len()).sum())
}

/// Compares lists of turns, as many as are due beside so many tickets, and forged records; true if nothing differs
/// and each refusal and case was met.
pub fn run(tickets: u64, seed: u64) -> bool {
    let mut tally = Tally::showing(SHOWN);
    tally.lists(&PORT, tickets / TICKETS_A_TURN, seed, false);
    let forged = (tally.turns.compared / TURNS_A_FORGED).max(LEAST_FORGED);
    tally.forgeries(&PORT, forged, seed, false);
    let Tally {
        designs,
        turns,
        forged,
        cases,
        ..
    } = &tally;
    println!(
        "retune, first designs: {} lists, {}",
        designs.compared,
        designs.table()
    );
    println!(
        "retune: {} lists, {} steps, {}",
        designs.accepted,
        turns.compared,
        turns.table()
    );
    let met: Vec<String> = cases
        .iter()
        .zip(&CASES)
        .map(|(times, case)| format!("{times} {}", case.what))
        .collect();
    println!("retune: {}", met.join(", "));
    println!(
        "retune, forged records: {} turns, {}",
        forged.compared,
        forged.table()
    );
    designs.complete("retune, first designs", &OF_DESIGNS)
        & turns.complete("retune", &OF_TURNS)
        & forged.complete("retune, forged records", &OF_FORGED)
        & tally.cases_met()
}

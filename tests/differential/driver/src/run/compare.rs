//! Runs both sides on the same tickets and counts what differs, and which refusals were met.

use std::collections::BTreeMap;

use crate::run::designers::{self, Answer};
use crate::run::faults::FAULTS;
use crate::run::inputs;
use crate::run::kinds::{About, SHARES, kinds};
use crate::run::large;
use crate::run::lent::Lent;
use crate::run::port;
use crate::run::random::Random;
use crate::run::report::{CARRIES, Report, bits, single_bits};
use crate::run::tickets::{Kind, Ticket};
use crate::run::totals::Totals;

/// How many differing tickets are shown for each kind.
pub const SHOWN: u64 = 8;

/// How many tickets a planted fault gets at most.
const FAULT_COUNT: u64 = 40_000;

/// One side of the comparison: the report, and the buffer written or left.
pub type Side = fn(&Ticket, &mut [u8]) -> Report;

/// What a refusal carries, in a word.
fn carried(carries: u32) -> &'static str {
    CARRIES[carries as usize]
}

/// Whether the buffer begins with what the Rust wrote, by bits, any NaN being the same as any
/// other, and is otherwise as it came.
pub fn holds(buffer: &Lent, answer: &Answer) -> bool {
    if !answer.fixed.is_empty() {
        buffer.begins(answer.fixed.iter(), |bytes, number| {
            bytes == number.to_le_bytes()
        })
    } else if !answer.singles.is_empty() {
        buffer.begins(answer.singles.iter(), |bytes, &sample| {
            single_bits(f32::from_le_bytes(bytes)) == single_bits(sample)
        })
    } else {
        buffer.begins(answer.taps.iter(), |bytes, &tap| {
            bits(f64::from_le_bytes(bytes)) == bits(tap)
        })
    }
}

/// The port's Q15 number of a tap, unless it is refused.
fn port_q15(tap: f64) -> Option<i64> {
    let report = port::q15_tap(tap);
    report.is_accepted().then_some(report.value as i64)
}

/// What a ticket showed that it shouldn't.
pub enum Finding {
    /// Its taps break a total.
    Breaks(&'static str),
    /// The sides' reports.
    Reports(Report, Report),
    /// The report of both; the buffers differ.
    Buffer(Report),
}

impl Finding {
    /// The finding in words, with the ticket.
    pub fn told(&self, ticket: &Ticket) -> String {
        match self {
            Self::Breaks(what) => format!("  {ticket:?}\n    breaks {what}"),
            Self::Reports(rust, port) => {
                format!("  {ticket:?}\n    Rust {rust:?}\n    port {port:?}")
            }
            Self::Buffer(report) => {
                format!("  {ticket:?}\n    the same report, {report:?}; the buffer differs")
            }
        }
    }
}

/// What the comparison of one kind has counted so far.
#[derive(Default)]
pub struct Tally {
    pub compared: u64,
    pub accepted: u64,
    pub differ: u64,
    /// How many of the compared ones a request's definition answers, and not the Rust.
    pub requested: u64,
    /// How often each refusal was met, by its number and what it carries.
    refused: BTreeMap<(u32, u32), u64>,
    /// Whether each of the kind's cases was met.
    cases: Vec<bool>,
    /// What the taps that both sides have by bits add up to.
    pub totals: Totals,
    /// Where the bytes that the buffers come with begin.
    pub lent: u64,
}

impl Tally {
    pub fn new(about: &About) -> Self {
        Self {
            cases: vec![false; about.cases.len()],
            ..Self::default()
        }
    }

    /// Compares a ticket; what it showed that it shouldn't, if anything. A total is checked if asked.
    pub fn judge(
        &mut self,
        about: &About,
        ticket: &Ticket,
        side: Side,
        totals: bool,
    ) -> Option<Finding> {
        let answer = designers::rust(ticket);
        let report = answer.report;
        let mut buffer = Lent::new(ticket.bytes(), self.lent.wrapping_add(self.compared));
        let other = side(ticket, buffer.part());
        self.compared += 1;
        self.requested += u64::from(designers::is_requested(ticket, &report));
        if report.is_accepted() {
            self.accepted += 1;
        } else {
            *self
                .refused
                .entry((report.number, report.carries))
                .or_default() += 1;
        }
        for (met, case) in self.cases.iter_mut().zip(about.cases) {
            *met = *met || (case.met)(ticket, &answer);
        }
        let same = report.same(&other);
        if same && holds(&buffer, &answer) {
            if !totals || !about.totals || answer.taps.is_empty() {
                return None;
            }
            let halfband = about.kind == Kind::Halfband;
            let broken = self
                .totals
                .check(halfband, report.value, &answer.taps, port_q15);
            return broken.map(Finding::Breaks);
        }
        self.differ += 1;
        Some(if same {
            Finding::Buffer(report)
        } else {
            Finding::Reports(report, other)
        })
    }

    /// Compares a ticket and shows it if it is one of the first that differ or break a total.
    fn compare(&mut self, about: &About, ticket: &Ticket, side: Side, shown: u64) {
        // A planted fault is noticed by its bits alone, so nothing is shown and added up there.
        if let Some(finding) = self.judge(about, ticket, side, shown > 0) {
            let times = match finding {
                Finding::Breaks(_) => self.totals.broken,
                _ => self.differ,
            };
            if times <= shown {
                println!("{}", finding.told(ticket));
            }
        }
    }

    /// All that was counted, as words that [`Tally::of_words`] takes back.
    pub fn words(&self) -> Vec<u64> {
        let mut words = vec![self.compared, self.accepted, self.differ, self.requested];
        words.push(self.refused.len() as u64);
        for (&(number, carries), &times) in &self.refused {
            words.extend([u64::from(number), u64::from(carries), times]);
        }
        words.extend(self.cases.iter().map(|&met| u64::from(met)));
        words.extend(self.totals.words());
        words
    }

    /// What those words were made of; nothing if they weren't made of this kind's.
    pub fn of_words(about: &About, words: &mut impl Iterator<Item = u64>) -> Option<Self> {
        let mut tally = Self::new(about);
        tally.compared = words.next()?;
        tally.accepted = words.next()?;
        tally.differ = words.next()?;
        tally.requested = words.next()?;
        for _ in 0..words.next()? {
            let number = words.next()?.try_into().ok()?;
            let carries = words.next()?.try_into().ok()?;
            CARRIES.get(carries as usize)?;
            tally.refused.insert((number, carries), words.next()?);
        }
        for met in &mut tally.cases {
            *met = words.next()? == 1;
        }
        let mut totals = [0; Totals::WORDS];
        for word in &mut totals {
            *word = words.next()?;
        }
        tally.totals = Totals::of_words(&totals);
        Some(tally)
    }

    /// Counts another tally of the same kind in.
    pub fn add(&mut self, other: &Self) {
        self.compared += other.compared;
        self.accepted += other.accepted;
        self.differ += other.differ;
        self.requested += other.requested;
        for (&refusal, times) in &other.refused {
            *self.refused.entry(refusal).or_default() += times;
        }
        for (met, now) in self.cases.iter_mut().zip(&other.cases) {
            *met |= now;
        }
        self.totals.add(&other.totals);
    }

    /// The refusals met, as `number: how many with what they carry`, and how many tickets aren't the
    /// Rust's.
    fn table(&self) -> String {
        let mut text = String::new();
        let mut last = 0;
        for (&(number, carries), times) in &self.refused {
            text += &if number == last {
                format!(", {times} {}", carried(carries))
            } else {
                format!("; {number}: {times} {}", carried(carries))
            };
            last = number;
        }
        if self.requested > 0 {
            text += &format!("; {} by a request's definition", self.requested);
        }
        text
    }

    pub fn print(&self, name: &str) {
        println!(
            "{name}: {} tickets, {} accepted, {} differ{}",
            self.compared,
            self.accepted,
            self.differ,
            self.table(),
        );
    }

    /// Tells what the kind can give and wasn't met, and what it gave and can't; how many of both.
    pub fn complete(&self, about: &About) -> (usize, usize) {
        let shown = |&(number, carries): &(u32, u32)| format!("{number} {}", carried(carries));
        let mut missed: Vec<String> = about
            .refusals
            .iter()
            .filter(|refusal| !self.refused.contains_key(refusal))
            .map(shown)
            .collect();
        let unforeseen: Vec<String> = self
            .refused
            .keys()
            .filter(|refusal| !about.refusals.contains(refusal))
            .map(shown)
            .collect();
        for (&met, case) in self.cases.iter().zip(about.cases) {
            if !met {
                missed.push(case.what.to_owned());
            }
        }
        if self.accepted == 0 {
            missed.push("an accepted ticket".to_owned());
        }
        for what in &missed {
            println!("{}: {what} never met", about.name);
        }
        for what in &unforeseen {
            println!("{}: {what} met, which the kind can't give", about.name);
        }
        (missed.len(), unforeseen.len())
    }
}

fn random(about: &About, seed: u64) -> Random {
    Random::new(seed ^ u64::from(about.number) << 56)
}

/// Whether a wrong side is noticed by the tickets of its kind.
fn notices(about: &About, wrong: Side, seed: u64) -> bool {
    let mut random = random(about, seed);
    let mut tally = Tally::new(about);
    let mut telling = inputs::telling(about.kind).into_iter();
    while tally.differ == 0 && tally.compared < FAULT_COUNT {
        let ticket = telling
            .next()
            .unwrap_or_else(|| inputs::draw(about.kind, &mut random));
        tally.compare(about, &ticket, wrong, 0);
    }
    tally.differ > 0
}

/// Puts wrong designers in the port's place; how many were noticed, and of how many.
pub fn run_faults(seed: u64) -> (usize, usize) {
    let mut noticed = 0;
    for fault in FAULTS.iter().copied().flatten() {
        let about = kinds().find(|about| about.kind == fault.kind);
        let about = about.expect("every kind is in the table");
        if notices(about, fault.wrong, seed) {
            noticed += 1;
        } else {
            println!("  not noticed: {} with {}", about.name, fault.what);
        }
    }
    (noticed, FAULTS.iter().map(|faults| faults.len()).sum())
}

/// Compares about `count` tickets over all kinds, then the large ones; true if none differs and
/// each refusal and case was met.
pub fn run(count: u64, seed: u64) -> bool {
    let mut tallies = Vec::new();
    for about in kinds() {
        let mut random = random(about, seed);
        let mut tally = Tally::new(about);
        for ticket in inputs::telling(about.kind) {
            tally.compare(about, &ticket, designers::port, SHOWN);
        }
        while tally.compared < count * about.share / SHARES {
            let ticket = inputs::draw(about.kind, &mut random);
            tally.compare(about, &ticket, designers::port, SHOWN);
        }
        tally.print(about.name);
        tallies.push(tally);
    }
    let mut all = Tally::default();
    let large = large::large();
    for (i, (kind, ticket)) in large.iter().enumerate() {
        for (about, tally) in kinds().zip(&mut tallies) {
            if about.kind == *kind {
                let place = i + 1;
                eprintln!("large ticket {place} of {}: {}", large.len(), about.name);
                let mut one = Tally::new(about);
                one.compare(about, ticket, designers::port, SHOWN);
                all.compared += 1;
                all.accepted += one.accepted;
                all.differ += one.differ;
                for (refusal, times) in one.refused {
                    *all.refused.entry(refusal).or_default() += times;
                    *tally.refused.entry(refusal).or_default() += times;
                }
                for (met, now) in tally.cases.iter_mut().zip(one.cases) {
                    *met |= now;
                }
                tally.totals.add(&one.totals);
            }
        }
    }
    all.print("large tickets");
    let mut equal = all.differ == 0;
    for (about, tally) in kinds().zip(&tallies) {
        equal &= tally.differ == 0;
        equal &= tally.complete(about) == (0, 0);
        if about.totals {
            tally.totals.print(about.name);
            equal &= tally.totals.kept();
        }
    }
    equal
}

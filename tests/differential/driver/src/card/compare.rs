//! Reads cards on both sides, writes and designs every ticket that was read, and tickets that no card has; compares
//! every answer with the model.

use crate::card::faults::{FAULTS, RIGHT};
use crate::card::inputs::{self, Card, is_long};
use crate::card::kinds::{
    DESIGNS, Design, OF_FORGED, OF_READINGS, OF_WRITINGS, READINGS, Seen, WRITINGS, Wrote,
    of_designs,
};
use crate::card::{FIELDS, PORT, Side, Slip, checked, designed, judged, parsed, written};
use crate::retune::counts::{Counts, Refusal};
use crate::run::compare::{SHOWN, holds};
use crate::run::lent::Lent;
use crate::run::random::Random;

/// One record is read for so many tickets, and one ticket without a card designed for so many records.
const TICKETS_A_RECORD: u64 = 40;
const RECORDS_A_FORGED: u64 = 11;

/// How many tickets without a card there are at least: there are no telling ones.
const LEAST_FORGED: u64 = 2000;

/// How many random records a planted fault gets at most.
const FAULT_COUNT: u64 = 20_000;

/// What the comparison has counted so far.
#[derive(Default)]
struct Tally {
    cards: Counts,
    readings: Counts,
    writings: Counts,
    /// By the card's kinds.
    designs: [Counts; FIELDS.len()],
    judgements: Counts,
    forged: Counts,
    forged_writings: Counts,
    /// How often each case was met.
    read: [u64; READINGS.len()],
    written: [u64; WRITINGS.len()],
    designed: [u64; DESIGNS.len()],
    /// How many buffers were lent.
    lent: u64,
    /// How many of those that differ are shown.
    shown: u64,
}

impl Tally {
    fn showing(shown: u64) -> Self {
        Self {
            shown,
            ..Self::default()
        }
    }

    fn differ(&self) -> u64 {
        let designs: u64 = self.designs.iter().map(|counts| counts.differ).sum();
        let others = [
            &self.cards,
            &self.readings,
            &self.writings,
            &self.judgements,
            &self.forged,
            &self.forged_writings,
        ];
        designs + others.map(|counts| counts.differ).iter().sum::<u64>()
    }

    /// Shows what differs, if it is one of the first.
    fn show(&self, same: bool, told: impl FnOnce() -> String) {
        if !same && self.differ() < self.shown {
            println!("  {}", told());
        }
    }

    fn lend(&mut self, bytes: u64) -> Lent {
        self.lent += 1;
        Lent::new(bytes, self.lent)
    }

    /// Writes a ticket into a buffer of so many bytes. Whether it answers and leaves what the model says; whether that
    /// reads back as the ticket; and where the ticket was read from a record, whether it is that record again.
    fn write_into(&mut self, side: &Side, slip: &Slip, bytes: u64, read: Option<&[u8]>) -> bool {
        let want = written(slip, bytes);
        let mut buffer = self.lend(bytes);
        let got = (side.write)(slip, buffer.part());
        let held = buffer.begins(want.record.iter(), |[byte], &right| byte == right);
        let seen = Wrote {
            slip,
            bytes,
            report: want.report,
            read,
        };
        let mut back = true;
        if want.report.is_accepted() {
            let record: &[u8] = buffer.part();
            let again = (side.read)(record);
            back = again.same(&parsed(&want.record));
            if let Some(read) = read {
                back &= again.slip == *slip && (seen.drops_beta() || record == read);
            }
        }
        let same = want.report.same(&got) && held && back;
        self.show(same, || {
            let buffer = if held { "as expected" } else { "another" };
            let back = if back { "" } else { ", and not back" };
            format!(
                "{slip:?} written in {bytes} bytes\n    model {:?}\n    port {got:?}; buffer {buffer}{back}",
                want.report
            )
        });
        for (times, case) in self.written.iter_mut().zip(&WRITINGS) {
            *times += u64::from((case.met)(&seen));
        }
        let counts = match read {
            Some(_) => &mut self.writings,
            None => &mut self.forged_writings,
        };
        // Every length is told in bytes, which any number says that isn't whole taps.
        counts.count(&want.report, 1, same);
        same
    }

    /// Writes a ticket into a buffer of its record's length, and into another one.
    fn write(&mut self, side: &Side, slip: &Slip, read: Option<&[u8]>) -> bool {
        let turn = (self.writings.compared + self.forged_writings.compared) / 2;
        let [own, other] = inputs::room(slip, turn);
        self.write_into(side, slip, own, read) && self.write_into(side, slip, other, read)
    }

    /// Designs a ticket into a buffer of so many bytes, and judges it; whether both are as the model says.
    fn design(&mut self, side: &Side, slip: &Slip, bytes: u64, is_forged: bool) -> bool {
        let want = designed(slip, bytes);
        let mut buffer = self.lend(bytes);
        let got = (side.design)(slip, buffer.part());
        let held = holds(&buffer, &want);
        let same = want.report.same(&got) && held;
        self.show(same, || {
            let buffer = if held { "as expected" } else { "another" };
            format!(
                "{slip:?} in {bytes} bytes\n    model {:?}\n    port {got:?}; buffer {buffer}",
                want.report
            )
        });
        let seen = Design {
            slip,
            bytes,
            report: want.report,
        };
        for (times, case) in self.designed.iter_mut().zip(&DESIGNS) {
            *times += u64::from((case.met)(&seen));
        }
        if is_forged {
            self.forged.count(&want.report, bytes, same);
        } else {
            self.designs[slip.kind as usize - 1].count(&want.report, bytes, same);
        }
        let want = judged(slip);
        let got = (side.judge)(slip);
        let same_judgement = want.same(&got);
        self.show(same_judgement, || {
            format!("{slip:?} judged\n    model {want:?}\n    port {got:?}")
        });
        self.judgements.count(&want, 0, same_judgement);
        same && same_judgement
    }

    /// Reads a card, record by record and at once, and writes and designs what is read, until something differs.
    fn card(&mut self, side: &Side, card: &Card) {
        let mut lent = self.lend(card.bytes.len() as u64);
        lent.part().copy_from_slice(&card.bytes);
        let bytes: &[u8] = lent.part();
        let want = checked(bytes);
        let got = (side.check)(bytes);
        let same = want.same(&got);
        self.show(same, || {
            format!("{card:?}\n    model {want:?}\n    port {got:?}")
        });
        self.cards.count(&want.report, 0, same);
        let mut rest = bytes;
        for &buffer in card.buffers.iter().chain(&[0]) {
            let want = parsed(rest);
            let got = (side.read)(rest);
            let same = want.same(&got);
            self.show(same, || {
                format!("{rest:?}\n    model {want:?}\n    port {got:?}")
            });
            self.readings.count(&want.report, 0, same);
            let seen = Seen {
                bytes: rest,
                reading: want,
            };
            for (times, case) in self.read.iter_mut().zip(&READINGS) {
                *times += u64::from((case.met)(&seen));
            }
            if !same || !want.report.is_accepted() {
                return;
            }
            let (record, unread) = rest.split_at(want.report.count as usize);
            if !self.write(side, &want.slip, Some(record)) {
                return;
            }
            if !is_long(&want.slip) && !self.design(side, &want.slip, buffer, false) {
                return;
            }
            rest = unread;
        }
    }

    /// Reads the telling cards and random ones, until so many records are read or one differs where it may end there.
    fn cards(&mut self, side: &Side, count: u64, seed: u64, ends: bool) {
        let mut random = Random::new(seed ^ 102 << 56);
        let mut telling = inputs::telling().into_iter().peekable();
        while (telling.peek().is_some() || self.readings.compared < count)
            && !(ends && self.differ() > 0)
        {
            let card = telling.next().unwrap_or_else(|| inputs::draw(&mut random));
            self.card(side, &card);
        }
    }

    /// The same with tickets that no card has.
    fn forgeries(&mut self, side: &Side, count: u64, seed: u64, ends: bool) {
        let mut random = Random::new(seed ^ 103 << 56);
        while self.forged.compared < count && !(ends && self.differ() > 0) {
            let (slip, bytes) = inputs::forged(&mut random);
            self.write(side, &slip, None);
            if !is_long(&slip) {
                self.design(side, &slip, bytes, true);
            }
        }
    }

    /// The cases of reading, of writing and of designing, each with how often it was met.
    fn cases(&self) -> impl Iterator<Item = (u64, &'static str)> {
        let read = self.read.iter().copied();
        let written = self.written.iter().copied();
        let designed = self.designed.iter().copied();
        let of_reading = read.zip(READINGS.iter().map(|case| case.what));
        let of_writing = written.zip(WRITINGS.iter().map(|case| case.what));
        let of_designing = designed.zip(DESIGNS.iter().map(|case| case.what));
        of_reading.chain(of_writing).chain(of_designing)
    }

    /// Tells the cases that were never met; true if there is none.
    fn cases_met(&self) -> bool {
        let missed = || self.cases().filter(|&(times, _)| times == 0);
        for (_, what) in missed() {
            println!("card: {what} never met");
        }
        missed().count() == 0
    }
}

/// Whether a wrong side is noticed.
fn notices(wrong: &Side, seed: u64) -> bool {
    let mut tally = Tally::default();
    tally.cards(wrong, FAULT_COUNT, seed, true);
    tally.forgeries(wrong, FAULT_COUNT, seed, true);
    tally.differ() > 0
}

/// Puts wrong sides in the port's place; how many were noticed, and of how many. The right one must not be.
pub fn run_faults(seed: u64) -> (usize, usize) {
    let mut noticed = 0;
    for fault in FAULTS {
        if notices(&fault.wrong, seed) {
            noticed += 1;
        } else {
            println!("  not noticed: card with {}", fault.what);
        }
    }
    if notices(&RIGHT, seed) {
        println!("  noticed: card with nothing wrong");
        noticed = 0;
    }
    (noticed, FAULTS.len())
}

/// Every refusal of the designs by the card's kinds, and what a ticket without a card has besides.
fn of_forged() -> Vec<Refusal> {
    let mut all: Vec<Refusal> = OF_FORGED.to_vec();
    all.extend((1..=FIELDS.len() as u64).flat_map(of_designs));
    all
}

/// The same without a buffer, and so without a length.
fn of_judgements() -> Vec<Refusal> {
    let mut all = of_forged();
    all.retain(|&(number, _)| number != 8);
    all
}

/// Compares cards, as many as are due beside so many tickets, and tickets without one; true if nothing differs and
/// each refusal and case was met.
pub fn run(tickets: u64, seed: u64) -> bool {
    let mut tally = Tally::showing(SHOWN);
    tally.cards(&PORT, tickets / TICKETS_A_RECORD, seed, false);
    let forged = (tally.readings.compared / RECORDS_A_FORGED).max(LEAST_FORGED);
    tally.forgeries(&PORT, forged, seed, false);
    let told = |what: &str, counts: &Counts| {
        println!("card: {} {what}, {}", counts.compared, counts.table());
    };
    told("cards at once", &tally.cards);
    told("records", &tally.readings);
    told("tickets written", &tally.writings);
    let mut complete = tally.cards.complete("card, at once", &OF_READINGS)
        & tally.readings.complete("card, records", &OF_READINGS)
        & tally
            .writings
            .complete("card, tickets written", &OF_WRITINGS);
    for (place, counts) in tally.designs.iter().enumerate() {
        let kind = place as u64 + 1;
        let name = format!("designs of kind {kind}");
        told(&name, counts);
        complete &= counts.complete(&format!("card, {name}"), &of_designs(kind));
    }
    told("tickets judged", &tally.judgements);
    told("tickets without a card", &tally.forged);
    told("tickets without a card written", &tally.forged_writings);
    let met: Vec<String> = tally
        .cases()
        .map(|(times, what)| format!("{times} {what}"))
        .collect();
    println!("card: {}", met.join(", "));
    complete
        & tally
            .forged
            .complete("card, tickets without a card", &of_forged())
        & tally.forged_writings.complete(
            "card, tickets without a card written",
            &[&OF_FORGED[..], &OF_WRITINGS].concat(),
        )
        & tally
            .judgements
            .complete("card, tickets judged", &of_judgements())
        & tally.cases_met()
}

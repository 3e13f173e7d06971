//! What the tickets of the conversions to Q14 and f32 share: their lengths, right and wrong ones.

use crate::run::draw::Draw;
use crate::run::tickets::{Kind, Source, Ticket};

/// How many bytes an element of a conversion takes.
pub fn width(kind: Kind) -> u64 {
    if kind == Kind::ToQ14 { 2 } else { 4 }
}

/// How many elements of a conversion belong together.
pub fn group(kind: Kind) -> u64 {
    if kind == Kind::ToF32 { 1 } else { 5 }
}

/// A conversion of a kind.
pub fn ticket(kind: Kind, elements: Vec<f64>, rest: u64, bytes: u64) -> Ticket {
    let source = Source {
        elements,
        rest,
        shift: 0,
    };
    match kind {
        Kind::ToQ14 => Ticket::ToQ14 { source, bytes },
        Kind::ToF32 => Ticket::ToF32 { source, bytes },
        _ => Ticket::ToF32Sos { source, bytes },
    }
}

/// A conversion whose lengths are right, if the elements are whole groups.
pub fn whole(kind: Kind, elements: Vec<f64>) -> Ticket {
    let bytes = width(kind) * elements.len() as u64;
    ticket(kind, elements, 0, bytes)
}

/// Wrong lengths of every sort, several at once.
pub fn telling_lengths(kind: Kind) -> Vec<Ticket> {
    let width = width(kind);
    let of = |count: usize| vec![0.5; count];
    let mut all = vec![
        // The source's bytes, the destination's, the sections, the numbers of elements.
        ticket(kind, of(6), 3, 5 * width + 1),
        ticket(kind, of(6), 0, 5 * width + 1),
        ticket(kind, of(6), 0, 5 * width),
        ticket(kind, of(6), 0, 6 * width),
        ticket(kind, of(5), 0, 6 * width),
        ticket(kind, of(5), 0, 10 * width),
        ticket(kind, of(10), 0, 5 * width),
        ticket(kind, of(10), 0, 11 * width),
        ticket(kind, of(5), 0, 5 * 8),
        ticket(kind, of(5), 0, 0),
        ticket(kind, of(4), 0, 0),
        ticket(kind, of(4), 0, 4 * width),
        ticket(kind, of(5), 7, 5 * width),
        ticket(kind, vec![], 7, 0),
        ticket(kind, vec![], 0, 1),
        ticket(kind, vec![], 0, 5 * width),
        ticket(kind, vec![], 0, 0),
    ];
    // A number that Q14 doesn't take behind each of them.
    for (count, rest, bytes) in [
        (6, 3, 6 * width),
        (5, 0, 5 * width + 1),
        (6, 0, 6 * width),
        (5, 0, 6 * width),
    ] {
        let mut elements = of(count);
        elements[1] = f64::NAN;
        all.push(ticket(kind, elements, rest, bytes));
    }
    all
}

impl Draw<'_> {
    /// How many elements a conversion gets: whole groups, or a fault.
    pub fn elements(&mut self, kind: Kind) -> u64 {
        let group = group(kind);
        let groups = match self.random.below(16) {
            0 => self.random.below(2),
            1..=13 => self.random.below(40 / group),
            _ => self.random.below(150 / group),
        };
        let count = group * groups;
        if self.fault() && self.random.below(2) == 0 {
            count + self.random.below(group)
        } else {
            count
        }
    }

    /// The elements as a conversion, its lengths right or wrong.
    pub fn lengths(&mut self, kind: Kind, elements: Vec<f64>) -> Ticket {
        let width = width(kind);
        let count = elements.len() as u64;
        let rest = if self.fault() && self.random.below(2) == 0 {
            1 + self.random.below(7)
        } else {
            0
        };
        let mut bytes = width * count;
        if self.fault() && self.random.below(2) == 0 {
            let any = width * self.random.below(40);
            let fewer = bytes.saturating_sub(width);
            let section = bytes.saturating_sub(5 * width);
            let row = [
                bytes + width,
                fewer,
                bytes + 5 * width,
                section,
                0,
                any,
                8 * count,
            ];
            bytes = self.one_of(&row);
        }
        if self.fault() && self.random.below(2) == 0 {
            bytes += 1 + self.random.below(width - 1);
        }
        ticket(kind, elements, rest, bytes)
    }
}

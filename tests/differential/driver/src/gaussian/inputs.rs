//! The tickets of a Gaussian pulse: telling ones, and random ones with faults.

use crate::run::draw::{CAP, Draw, ODD, RANDOM_TAPS, around};
use crate::run::tickets::{Kind, Pulse, Ticket};

fn pulse(bt: f64, samples: u64, span: u64) -> Pulse {
    Pulse { bt, samples, span }
}

/// The most samples that a symbol of a span can have.
fn most(span: u64) -> u64 {
    (CAP - 1) / span
}

/// The number of taps that is asked for, or one that is as good as any other.
fn taps(pulse: &Pulse) -> u64 {
    let known = (2..=8).contains(&pulse.span) && pulse.samples <= RANDOM_TAPS;
    if known {
        pulse.samples * pulse.span + 1
    } else {
        9
    }
}

/// The telling pulses. None that is accepted is long.
fn telling_pulses() -> Vec<Pulse> {
    let mut all = vec![
        pulse(0.5, 8, 4),
        pulse(0.5, 2, 2),
        pulse(1.0, 3, 3),
        pulse(0.2, 4, 8),
        // One fault after another: the bandwidth, the span, the samples.
        pulse(0.1, 1, 1),
        pulse(0.1, 8, 1),
        pulse(0.5, 1, 1),
        pulse(0.5, 1, 9),
        pulse(0.5, 0, 0),
        pulse(0.5, u64::MAX, u64::MAX),
        pulse(0.5, 8, 0),
        pulse(0.5, 8, 1),
        pulse(0.5, 8, 9),
        pulse(0.5, 1, 4),
        pulse(0.5, 0, 4),
        pulse(0.5, most(2) + 1, 2),
        pulse(0.5, most(8) + 1, 8),
        pulse(0.5, most(4), 9),
        pulse(1.1, most(4), 4),
        // The product with the span would be lost, or taken if upper bits were.
        pulse(0.5, u64::MAX, 8),
        pulse(0.5, 1 << 61, 8),
        pulse(0.5, (1 << 32) + 8, 4),
        pulse(0.5, 8, (1 << 32) + 4),
        pulse(0.5, (1 << 53) + 1, 4),
        pulse(0.5, 8, (1 << 53) + 1),
        pulse(0.5, 1 << 63, 2),
    ];
    all.extend(around(0.2).map(|bt| pulse(bt, 4, 2)));
    all.extend(around(1.0).map(|bt| pulse(bt, 4, 2)));
    all.extend(ODD.map(|bt| pulse(bt, 2, 3)));
    for span in 2..=8 {
        all.push(pulse(0.3, 2, span));
        all.push(pulse(0.7, 3, span));
        all.push(pulse(0.3, most(span) + 1, span));
        all.push(pulse(0.3, 1, span));
    }
    all
}

/// The telling tickets of a kind, those that tell most first.
pub fn telling(kind: Kind) -> Vec<Ticket> {
    let pulses = telling_pulses();
    if kind == Kind::GaussianNew {
        return pulses
            .into_iter()
            .map(|pulse| Ticket::GaussianNew { pulse })
            .collect();
    }
    let ticket = |pulse, bytes| Ticket::Gaussian { pulse, bytes };
    let mut all = vec![
        // A byte length that isn't whole comes before everything else, a wrong one after it.
        ticket(pulse(0.1, 1, 1), 13),
        ticket(pulse(0.1, 1, 1), 16),
        ticket(pulse(0.5, 1, 4), 16),
        ticket(pulse(0.5, 2, 2), 8 * 4),
        ticket(pulse(0.5, 2, 2), 8 * 6),
        ticket(pulse(0.5, 2, 2), 8 * 5 + 1),
        ticket(pulse(0.5, 2, 2), 0),
    ];
    all.extend(
        pulses
            .into_iter()
            .map(|pulse| ticket(pulse, 8 * taps(&pulse))),
    );
    all.extend((1..8).map(|more| ticket(pulse(0.5, 2, 2), 8 * 4 + more)));
    all
}

impl Draw<'_> {
    fn pulse(&mut self) -> Pulse {
        let good = match self.random.below(4) {
            0 => self.one_of(&[0.2, 0.3, 0.5, 1.0]),
            _ => self.random.uniform(0.2, 1.0),
        };
        let bt = self.number(good, &[0.2, 1.0]);
        let good = 2 + self.random.below(7);
        let any = self.random.bits();
        let span = if self.fault() {
            self.one_of(&[0, 1, 1, 9, 9, 10, any, any % 32, (1 << 32) + 4, u64::MAX])
        } else {
            good
        };
        let small = 2 + match self.random.below(200) {
            0..=139 => self.random.below(8),
            140..=195 => self.random.below(20),
            _ => self.random.below(500),
        };
        let mut samples = small;
        if self.fault() {
            let limit = most(good);
            let row = [
                0,
                0,
                1,
                1,
                limit,
                limit + 1,
                limit + 1,
                limit + 2,
                any,
                any >> 8 | 1 << 40,
                (1 << 32) + small,
                u64::MAX,
            ];
            samples = self.one_of(&row);
        }
        // A pulse that would take long is made short where it isn't refused.
        let taken = (0.2..=1.0).contains(&bt) && (2..=8).contains(&span);
        if taken && samples <= most(span) && samples * span > RANDOM_TAPS {
            samples = small;
        }
        Pulse { bt, samples, span }
    }
}

/// A random ticket of a kind.
pub fn draw(kind: Kind, draw: &mut Draw) -> Ticket {
    let pulse = draw.pulse();
    if kind == Kind::GaussianNew {
        return Ticket::GaussianNew { pulse };
    }
    let mut taps = taps(&pulse);
    if draw.fault() {
        let any = draw.random.below(40);
        taps = draw.one_of(&[taps - 1, taps + 1, taps.saturating_sub(2), 0, any]);
    }
    let mut bytes = 8 * taps;
    if draw.fault() {
        bytes += draw.random.below(8);
    }
    Ticket::Gaussian { pulse, bytes }
}

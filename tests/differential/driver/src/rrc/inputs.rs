//! The tickets of a root-raised-cosine pulse: telling ones, and random ones with faults.

use crate::run::draw::{COUNTS, Draw, ODD, RANDOM_TAPS, around, neighbour};
use crate::run::tickets::{Cosine, Kind, Ticket};

/// How near 1 − (4 · rolloff · t)² comes to 0 where the closed form takes over.
pub const NEAR: f64 = 1e-9;

fn cosine(rolloff: f64, samples: u64, span: u64) -> Cosine {
    Cosine {
        rolloff,
        samples,
        span,
    }
}

/// Whether the counts are taken.
pub fn is_counted(samples: u64, span: u64) -> bool {
    (2..=1024).contains(&samples) && (4..=32).contains(&span)
}

/// The time of each tap from the middle, in symbols.
pub fn times(cosine: Cosine) -> impl Iterator<Item = f64> {
    let last = cosine.samples * cosine.span;
    (0..=last).map(move |k| (k as f64 - last as f64 / 2.0) / cosine.samples as f64)
}

/// How far each tap is from a singular point: 1 − (4 · rolloff · t)².
pub fn distances(cosine: Cosine) -> impl Iterator<Item = f64> {
    times(cosine).map(move |t| {
        let x = 4.0 * cosine.rolloff * t;
        1.0 - x * x
    })
}

/// The number of taps that is asked for, or one that is as good as any other where it is long.
fn taps(cosine: &Cosine) -> u64 {
    let taps = cosine.samples.saturating_mul(cosine.span).saturating_add(1);
    if taps <= RANDOM_TAPS { taps } else { 9 }
}

/// The roll-offs at which a tap at time `t` passes from the formula to the closed form and back.
fn edges(t: f64) -> [f64; 2] {
    [-NEAR, NEAR].map(|off| (1.0 + off).sqrt() / (4.0 * t))
}

/// The telling counts, those that tell most first.
fn telling_counts() -> Vec<[u64; 2]> {
    let mut all = vec![
        [2, 4],
        [1, 4],
        [1024, 32],
        [2, 3],
        [2, 33],
        [1025, 32],
        [2, 32],
        [1024, 4],
        // Both are wrong: the samples are told.
        [1, 3],
        [1025, 33],
        [0, 0],
        [1, 33],
        [u64::MAX, u64::MAX],
        // Taken if upper bits were lost.
        [(1 << 32) + 2, 4],
        [2, (1 << 32) + 4],
        [1 << 63, 4],
        [2, 1 << 63],
        // Rounded on its way into a report.
        [(1 << 53) + 1, 4],
        [2, (1 << 53) + 1],
        [3, 5],
        [8, 16],
    ];
    all.extend(COUNTS.map(|samples| [samples, 8]));
    all.extend(COUNTS.map(|span| [8, span]));
    all
}

/// The telling pulses. None that is accepted is long.
fn telling_cosines() -> Vec<Cosine> {
    let mut all = vec![
        cosine(0.5, 2, 4),
        cosine(0.25, 2, 4),
        cosine(0.35, 2, 5),
        cosine(1.0, 4, 4),
        cosine(0.05, 3, 4),
        // No tap is in the middle.
        cosine(0.5, 3, 5),
        // One fault after another: the roll-off, the samples, the span.
        cosine(0.01, 1, 3),
        cosine(0.01, 2, 3),
        cosine(0.5, 1, 3),
        cosine(0.5, 1025, 33),
        cosine(0.5, 0, 0),
        cosine(0.5, 1, 4),
        cosine(0.5, 2, 3),
        cosine(0.5, 2, 33),
        cosine(0.5, 1025, 4),
        cosine(f64::NAN, 2, 4),
        // Nearly on a singular point.
        cosine(neighbour(0.25, 1), 2, 4),
        cosine(neighbour(0.25, -1), 2, 4),
        cosine(neighbour(0.5, 1), 2, 4),
        cosine(neighbour(0.5, -1), 2, 4),
        cosine(0.25 + 1e-10, 2, 4),
        cosine(0.25 + 2e-10, 2, 4),
        cosine(0.5, u64::MAX, u64::MAX),
        cosine(0.5, (1 << 32) + 2, 4),
        cosine(0.5, 2, (1 << 32) + 4),
        cosine(0.5, 1 << 63, 4),
        cosine(0.5, (1 << 53) + 1, 4),
        // Its singular points are at 5 symbols, the last of them.
        cosine(0.05, 2, 10),
        cosine(0.5, 8, 8),
        cosine(0.22, 4, 32),
    ];
    for t in [0.5, 1.0, 1.5] {
        for edge in edges(t) {
            all.extend((-4..=4).map(|steps| cosine(neighbour(edge, steps), 2, 4)));
        }
    }
    all.extend(around(0.05).map(|rolloff| cosine(rolloff, 2, 4)));
    all.extend(around(1.0).map(|rolloff| cosine(rolloff, 2, 4)));
    all.extend(ODD.map(|rolloff| cosine(rolloff, 2, 5)));
    all.extend(telling_counts().into_iter().filter_map(|[samples, span]| {
        let short = !is_counted(samples, span) || samples * span < 1000;
        short.then(|| cosine(0.4, samples, span))
    }));
    all
}

/// The telling tickets of a kind, those that tell most first.
pub fn telling(kind: Kind) -> Vec<Ticket> {
    match kind {
        Kind::RrcLen => telling_counts()
            .into_iter()
            .map(|[samples, span]| Ticket::RrcLen { samples, span })
            .collect(),
        Kind::RrcNew => telling_cosines()
            .into_iter()
            .map(|cosine| Ticket::RrcNew { cosine })
            .collect(),
        _ => telling_buffers(),
    }
}

fn telling_buffers() -> Vec<Ticket> {
    let ticket = |cosine, bytes| Ticket::Rrc { cosine, bytes };
    let mut all = vec![
        // A byte length that isn't whole comes before everything else, a wrong one after it.
        ticket(cosine(0.01, 1, 3), 13),
        ticket(cosine(0.01, 1, 3), 16),
        ticket(cosine(0.5, 1, 4), 16),
        ticket(cosine(0.5, 2, 3), 16),
        ticket(cosine(0.5, 2, 4), 8 * 8),
        ticket(cosine(0.5, 2, 4), 8 * 10),
        ticket(cosine(0.5, 2, 4), 8 * 9 + 1),
        ticket(cosine(0.5, 2, 4), 0),
    ];
    all.extend(
        telling_cosines()
            .into_iter()
            .map(|cosine| ticket(cosine, 8 * taps(&cosine))),
    );
    all.extend((1..8).map(|more| ticket(cosine(0.5, 2, 4), 8 * 8 + more)));
    all
}

impl Draw<'_> {
    /// The samples of a symbol and the span, each a good one or a fault; short ones as a rule.
    fn counts(&mut self) -> [u64; 2] {
        let any = self.random.bits();
        let mut samples = 2 + match self.random.below(200) {
            0..=119 => self.random.below(4),
            120..=189 => self.random.below(12),
            _ => self.random.below(100),
        };
        if self.fault() {
            let row = [
                0,
                0,
                1,
                1,
                1023,
                1024,
                1025,
                1025,
                1026,
                any,
                any % 4096,
                (1 << 32) + samples,
                u64::MAX,
            ];
            samples = self.one_of(&row);
        }
        let mut span = 4 + match self.random.below(8) {
            0..=4 => self.random.below(6),
            _ => self.random.below(29),
        };
        if self.fault() {
            let row = [
                0,
                1,
                3,
                3,
                32,
                33,
                33,
                34,
                any,
                any % 64,
                (1 << 32) + 4,
                u64::MAX,
            ];
            span = self.one_of(&row);
        }
        [samples, span]
    }

    /// A roll-off that is taken; often one that has a tap on a singular point, or next to it.
    fn rolloff(&mut self, samples: u64, span: u64) -> f64 {
        let any = self.random.uniform(0.05, 1.0);
        match self.random.below(8) {
            0 | 1 => self.one_of(&[0.05, 0.2, 0.22, 0.25, 0.35, 0.5, 1.0]),
            2..=4 if is_counted(samples, span) => {
                let last = samples * span;
                let place = self.random.below(last / 2 + 1) as f64;
                let t = (last as f64 / 2.0 - place) / samples as f64;
                let edges = edges(t);
                let off = self.random.uniform(-2.0 * NEAR, 2.0 * NEAR);
                let row = [1.0 / (4.0 * t), edges[0], edges[1], (1.0 + off) / (4.0 * t)];
                let near = self.one_of(&row);
                let near = neighbour(near, self.random.between(-3, 3));
                if (0.05..=1.0).contains(&near) {
                    near
                } else {
                    any
                }
            }
            _ => any,
        }
    }

    fn cosine(&mut self) -> Cosine {
        let [mut samples, span] = self.counts();
        // A pulse that would take long is made short where it isn't refused.
        if is_counted(samples, span) && samples * span > RANDOM_TAPS {
            samples = 2 + self.random.below(8);
        }
        let good = self.rolloff(samples, span);
        let rolloff = self.number(good, &[0.05, 1.0]);
        cosine(rolloff, samples, span)
    }
}

/// A random ticket of a kind.
pub fn draw(kind: Kind, draw: &mut Draw) -> Ticket {
    if kind == Kind::RrcLen {
        let [samples, span] = draw.counts();
        return Ticket::RrcLen { samples, span };
    }
    let cosine = draw.cosine();
    if kind == Kind::RrcNew {
        return Ticket::RrcNew { cosine };
    }
    let mut taps = taps(&cosine);
    if draw.fault() {
        let any = draw.random.below(40);
        taps = draw.one_of(&[taps.saturating_sub(1), taps + 1, taps / 2, 0, any]);
    }
    let mut bytes = 8 * taps;
    if draw.fault() {
        bytes += draw.random.below(8);
    }
    Ticket::Rrc { cosine, bytes }
}

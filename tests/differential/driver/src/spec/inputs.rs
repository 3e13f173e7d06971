//! The tickets of a spec: telling ones, and random ones with faults.

use std::f64::consts::PI;

use sdrk_blocks::design::kaiserord;

use crate::kaiser::inputs::ATTENUATIONS;
use crate::run::draw::{CAP, Draw, NARROWEST, ODD, RANDOM_TAPS, SMALLEST, around, neighbour};
use crate::run::tickets::{Kind, LARGEST_COUNT, Spec, Ticket};

/// A spec of 60 dB, transition 100, cutoff 1000 at rate 8000; it needs 293 taps.
const SPEC: Spec = Spec {
    cutoff: 1000.0,
    transition: 100.0,
    attenuation: 60.0,
    rate: 8000.0,
    max_taps: 293,
};

/// A spec of 40 dB that needs 13 taps.
const SHORT: Spec = Spec {
    cutoff: 10.0,
    transition: 12.0,
    attenuation: 40.0,
    rate: 64.0,
    max_taps: 13,
};

/// A spec whose quotient underflows to 0 in the low-pass; it needs 17 taps.
const UNDERFLOW: Spec = Spec {
    cutoff: 2.0 * SMALLEST,
    transition: SMALLEST,
    attenuation: 60.0,
    rate: 4.0 * SMALLEST,
    max_taps: 17,
};

/// A spec that needs 16777217 taps.
pub const LONGEST: Spec = Spec {
    cutoff: 0.25,
    transition: NARROWEST,
    attenuation: 60.0,
    rate: 1.0,
    max_taps: LARGEST_COUNT,
};

/// A spec whose series doesn't settle; with so wide a transition it needs 459 taps.
const STEEP: Spec = Spec {
    cutoff: 0.001,
    transition: 0.99,
    attenuation: 6500.0,
    rate: 1.0,
    max_taps: u64::MAX,
};

/// The largest attenuation whose series settles.
const LARGEST_ATTENUATION: f64 = 6_487.710_059_382_651;

/// The telling specs about that attenuation, and what is tested before the series.
fn telling_steep() -> Vec<Spec> {
    let next = LARGEST_ATTENUATION.next_up();
    // The first of them has a beta just above 713.
    let mut all: Vec<Spec> = [6478.76, LARGEST_ATTENUATION, next, -7000.0]
        .into_iter()
        .map(|attenuation| Spec {
            attenuation,
            ..STEEP
        })
        .collect();
    // The low-pass's count.
    let width = (STEEP.attenuation - 7.95) / 2.285 / (2.0 * PI * (CAP as f64 - 1.0));
    let longest = (-64..64)
        .map(|steps| Spec {
            transition: neighbour(width, steps),
            ..STEEP
        })
        .find(|spec| needed(spec) == LARGEST_COUNT);
    all.extend([
        longest.expect("a transition of 16777217 taps"),
        // The cap, and the low-pass's cutoff.
        Spec {
            max_taps: needed(&STEEP) - 1,
            ..STEEP
        },
        Spec {
            attenuation: STEEP.attenuation,
            max_taps: u64::MAX,
            ..UNDERFLOW
        },
    ]);
    all
}

/// The telling specs.
fn telling_specs() -> Vec<Spec> {
    let short = SHORT;
    let limit = short.rate / 2.0 - short.transition / 2.0;
    let mut all = vec![
        SHORT,
        UNDERFLOW,
        LONGEST,
        Spec {
            max_taps: LARGEST_COUNT - 1,
            ..LONGEST
        },
        Spec {
            transition: neighbour(NARROWEST, -1),
            ..LONGEST
        },
        Spec {
            max_taps: 292,
            ..SPEC
        },
        SPEC,
        Spec {
            rate: -8000.0,
            max_taps: 292,
            ..SPEC
        },
        Spec {
            transition: -100.0,
            rate: -8000.0,
            ..SPEC
        },
        Spec {
            attenuation: -40.0,
            ..short
        },
        Spec {
            attenuation: 7.9,
            max_taps: 0,
            ..short
        },
        // The width: twice the transition is infinite, or the quotient underflows.
        Spec {
            cutoff: 1e307,
            transition: 1e308,
            rate: 1.7e308,
            ..short
        },
        Spec {
            cutoff: 1.0,
            transition: SMALLEST,
            rate: 1.7e308,
            ..short
        },
        STEEP,
        // One fault after another: rate, transition, cutoff, attenuation, cap.
        Spec {
            cutoff: 0.0,
            transition: 0.0,
            attenuation: 0.0,
            rate: 0.0,
            max_taps: 0,
        },
        Spec {
            cutoff: 0.0,
            transition: 0.0,
            attenuation: 0.0,
            rate: 8000.0,
            max_taps: 0,
        },
        Spec {
            cutoff: 0.0,
            attenuation: 0.0,
            max_taps: 0,
            ..SPEC
        },
        Spec {
            attenuation: 0.0,
            max_taps: 0,
            ..SPEC
        },
        Spec {
            attenuation: 0.0,
            transition: SMALLEST,
            cutoff: 1.0,
            rate: 1e308,
            max_taps: 0,
        },
        Spec {
            max_taps: 0,
            ..SPEC
        },
    ];
    all.extend([12, 14, u64::MAX].map(|max_taps| Spec { max_taps, ..short }));
    all.extend(around(limit).map(|cutoff| Spec { cutoff, ..short }));
    all.extend(around(8.0).map(|attenuation| Spec {
        attenuation,
        max_taps: 99,
        ..short
    }));
    all.extend([21.0, 50.0].map(|attenuation| Spec {
        attenuation,
        max_taps: 99,
        ..short
    }));
    all.extend(ODD.map(|rate| Spec { rate, ..short }));
    all.extend(ODD.map(|transition| Spec {
        transition,
        ..short
    }));
    all.extend(ODD.map(|cutoff| Spec { cutoff, ..short }));
    all.extend(ODD.map(|attenuation| Spec {
        attenuation,
        ..short
    }));
    all.extend(telling_steep());
    all
}

/// The count that the Rust needs for a spec, or one that is as good as any other.
pub fn needed(spec: &Spec) -> u64 {
    kaiserord(spec.attenuation, spec.transition, spec.rate).map_or(9, |(count, _)| count as u64)
}

/// The telling tickets of a kind, those that tell most first.
pub fn telling(kind: Kind) -> Vec<Ticket> {
    match kind {
        Kind::SpecNumTaps => telling_specs()
            .into_iter()
            .map(|spec| Ticket::SpecNumTaps { spec })
            .collect(),
        Kind::SpecLowpass => telling_specs()
            .into_iter()
            .map(|spec| Ticket::SpecLowpass { spec })
            .collect(),
        Kind::SpecDesign => {
            let design = |spec, bytes| Ticket::SpecDesign { spec, bytes };
            let mut all = vec![
                design(LONGEST, 8 * 17),
                design(UNDERFLOW, 8 * 17),
                design(UNDERFLOW, 8 * 16),
                design(SHORT, 8 * 12),
                design(SHORT, 8 * 14),
                design(SHORT, 8 * 13 + 1),
                design(SHORT, 0),
                // A byte length that isn't whole comes before everything else.
                design(
                    Spec {
                        rate: -1.0,
                        max_taps: 0,
                        ..SHORT
                    },
                    13,
                ),
                // The cap comes before the length.
                design(
                    Spec {
                        max_taps: 12,
                        ..SHORT
                    },
                    8 * 12,
                ),
            ];
            for spec in telling_specs() {
                let count = needed(&spec);
                // The longest is a large ticket.
                if count < CAP {
                    all.push(design(spec, 8 * count));
                }
            }
            all.extend((1..8).map(|more| design(SHORT, 8 * 12 + more)));
            // The length comes before the series.
            all.extend([0, 8 * 12, 13].map(|bytes| design(STEEP, bytes)));
            all
        }
        _ => panic!("{kind:?} has tickets of its own"),
    }
}

impl Draw<'_> {
    pub fn spec(&mut self) -> Spec {
        let mut attenuation = self.attenuation();
        let mut good = self.rate();
        let mut transition = match self.random.below(32) {
            0 => self.transition(attenuation, good, CAP as f64),
            1 => good * self.random.scaled(-9, -5),
            _ => good * self.random.uniform(0.02, 0.8),
        };
        match self.random.below(2000) {
            // Betas about the largest whose series settles.
            0 => {
                attenuation = self.random.uniform(6470.0, 6500.0);
                transition = good * self.random.uniform(0.7, 0.95);
            }
            // Widths too large, then too small.
            1..=20 => {
                good = self.random.uniform(1.2e308, 1.79e308);
                transition = self.random.uniform(0.9e308, good);
            }
            21..=40 => {
                good = self.random.scaled(900, 1023);
                transition = f64::from_bits(self.random.bits() >> self.random.between(12, 63));
            }
            _ => {}
        }
        let rate = self.number(good, &[0.0]);
        let transition = self.number(transition, &[0.0, rate, NARROWEST * rate, f64::MAX / 2.0]);
        let attenuation = self.number(attenuation, &ATTENUATIONS);
        let largest = rate / 2.0 - transition / 2.0;
        let good = match self.random.below(8) {
            0 => largest,
            1 => largest * self.random.scaled(-1022, -1),
            _ => largest * self.random.unit(),
        };
        let cutoff = self.number(good, &[0.0, largest, largest, rate / 2.0]);
        let mut spec = Spec {
            cutoff,
            transition,
            attenuation,
            rate,
            max_taps: 0,
        };
        let count = needed(&spec);
        spec.max_taps = if self.fault() {
            let any = self.random.bits();
            self.one_of(&[
                count - 1,
                count - 1,
                0,
                1,
                count / 2,
                any,
                any % (2 * count),
            ])
        } else {
            let more = count + self.random.below(100);
            self.one_of(&[count, count, count + 1, more, 1 << 32, u64::MAX])
        };
        spec
    }
}

/// The spec, but refused for its cap where the design would take too long.
pub fn bounded(spec: Spec) -> Spec {
    let count = needed(&spec);
    if count > RANDOM_TAPS && count <= CAP && spec.max_taps >= count {
        let max_taps = count - 1;
        Spec { max_taps, ..spec }
    } else {
        spec
    }
}

/// A random ticket of a kind.
pub fn draw(kind: Kind, draw: &mut Draw) -> Ticket {
    match kind {
        Kind::SpecNumTaps => Ticket::SpecNumTaps { spec: draw.spec() },
        Kind::SpecLowpass => Ticket::SpecLowpass {
            spec: bounded(draw.spec()),
        },
        Kind::SpecDesign => {
            let spec = bounded(draw.spec());
            let mut taps = needed(&spec);
            if taps > RANDOM_TAPS {
                taps = draw.taps();
            }
            if draw.fault() {
                let any = draw.taps();
                taps = draw.one_of(&[taps - 1, taps + 1, 0, any]);
            }
            let mut bytes = 8 * taps;
            if draw.fault() {
                bytes += draw.random.below(8);
            }
            Ticket::SpecDesign { spec, bytes }
        }
        _ => panic!("{kind:?} has tickets of its own"),
    }
}

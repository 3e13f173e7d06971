//! The tickets of a half-band: telling ones, and random ones with faults.

use crate::run::draw::{
    BETAS, CAP, COUNTS, Draw, LARGEST_BETA, ODD, RANDOM_TAPS, SMALLEST, around,
};
use crate::run::tickets::{Kind, Ticket};

/// The telling half-bands: the beta and the number of taps.
fn telling_halfbands() -> Vec<(f64, u64)> {
    let mut all = vec![
        (8.0, 5),
        (8.0, 3),
        (8.0, 7),
        // The halves of the low-pass differ by bits from here on.
        (8.0, 11),
        (5.65326, 15),
        // The count comes before the beta, the beta before the sum.
        (-1.0, 5),
        (-1.0, 7),
        (f64::NAN, 6),
        (f64::NAN, 7),
        (1000.0, 5),
        (1000.0, 7),
        (0.0, 0),
        (0.0, 1),
        (0.0, 2),
        (0.0, 3),
        (-0.0, 3),
        (-0.0, 19),
        (0.0, 4),
        (0.0, 9),
        (8.0, 23),
        (12.0, 31),
        (SMALLEST, 7),
        (713.9, 7),
        (1e308, 3),
    ];
    all.extend(around(LARGEST_BETA).map(|beta| (beta, 7)));
    all.extend(around(LARGEST_BETA).map(|beta| (beta, 11)));
    all.extend(ODD.map(|beta| (beta, 7)));
    all.extend((8..20).map(|taps| (2.5, taps)));
    for beta in BETAS {
        all.extend([3, 7].map(|taps| (beta, taps)));
    }
    // What is tested before the series: the count, the beta.
    all.extend([0, 1, 4, 5].map(|taps| (1e3, taps)));
    all.push((-1e3, 7));
    all
}

/// Counts past 2^24 that are 3 mod 4, and would be taken if they lost upper bits.
const LONG: [u64; 6] = [
    CAP + 3,
    (1 << 32) + 3,
    (1 << 32) + 7,
    (1 << 63) + 11,
    (1 << 53) + 3,
    u64::MAX,
];

/// The telling tickets of a kind, those that tell most first.
pub fn telling(kind: Kind) -> Vec<Ticket> {
    let mut pairs = telling_halfbands();
    match kind {
        Kind::HalfbandNew => {
            // The limit is taken: with a beta that isn't, 4 and not 6 is the answer.
            let mut all = vec![(-1.0, CAP - 1), (-1.0, CAP + 3), (8.0, CAP + 3)];
            all.extend(pairs.drain(..16));
            all.extend(LONG.map(|taps| (8.0, taps)));
            all.extend(LONG.map(|taps| (f64::NAN, taps)));
            for taps in COUNTS {
                if taps % 4 != 3 || taps > CAP {
                    all.push((8.0, taps));
                }
            }
            all.extend(pairs);
            all.extend(LONG.map(|taps| (1e3, taps)));
            all.into_iter()
                .map(|(beta, taps)| Ticket::HalfbandNew { beta, taps })
                .collect()
        }
        _ => {
            let ticket = |(beta, taps)| Ticket::Halfband {
                beta,
                bytes: 8 * taps,
            };
            // A byte length that isn't whole comes before everything else.
            let mut all = vec![
                Ticket::Halfband {
                    beta: -1.0,
                    bytes: 13,
                },
                Ticket::Halfband {
                    beta: 8.0,
                    bytes: 60,
                },
            ];
            all.extend(pairs.drain(..24).map(ticket));
            all.extend((1..8).map(|more| Ticket::Halfband {
                beta: 8.0,
                bytes: 8 * 7 + more,
            }));
            all.extend(pairs.into_iter().map(ticket));
            all.extend([13, 60].map(|bytes| Ticket::Halfband { beta: 1e3, bytes }));
            all
        }
    }
}

impl Draw<'_> {
    /// The number of taps of a half-band that is to be made.
    fn halfband_taps(&mut self) -> u64 {
        3 + 4 * match self.random.below(200) {
            0..=119 => self.random.below(8),
            120..=179 => self.random.below(16),
            180..=198 => self.random.below(40),
            _ => self.random.below(250),
        }
    }
}

/// A random ticket of a kind.
pub fn draw(kind: Kind, draw: &mut Draw) -> Ticket {
    let beta = draw.beta();
    let small = draw.halfband_taps();
    let mut taps = small;
    if draw.fault() {
        let any = draw.random.below(60);
        taps = draw.one_of(&[
            small + 1,
            small + 2,
            small + 3,
            small - 1,
            small - 2,
            any,
            0,
        ]);
    }
    if kind == Kind::Halfband {
        let mut bytes = 8 * taps;
        if draw.fault() {
            bytes += draw.random.below(8);
        }
        return Ticket::Halfband { beta, bytes };
    }
    if draw.fault() {
        let any = draw.random.bits() | 1 << 40;
        let row = [
            draw.one_of(&COUNTS),
            draw.one_of(&LONG),
            any,
            any | 3,
            CAP - 1,
        ];
        taps = draw.one_of(&row);
    }
    // A design that would take long is made short where it isn't refused.
    if taps > RANDOM_TAPS && taps <= CAP && taps % 4 == 3 && beta >= 0.0 && beta.is_finite() {
        taps = small;
    }
    Ticket::HalfbandNew { beta, taps }
}

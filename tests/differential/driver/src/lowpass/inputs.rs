//! The tickets of the low-pass: telling ones, and random ones with faults.

use crate::run::draw::{
    BETAS, CAP, COUNTS, Draw, LARGEST_BETA, ODD, RANDOM_TAPS, SMALLEST, neighbour,
};
use crate::run::tickets::{Band, Kind, Ticket};

/// Codes that no window has.
const UNKNOWN_WINDOWS: [u64; 6] = [4, 5, 1 << 32, (1 << 32) + 3, 1 << 63, u64::MAX];

pub fn hann(cutoff: f64, rate: f64) -> Band {
    Band {
        cutoff,
        rate,
        window: 0,
        beta: 0.0,
    }
}

pub fn windowed(window: u64, beta: f64) -> Band {
    Band {
        window,
        beta,
        ..hann(0.25, 1.0)
    }
}

/// The telling low-passes, each with its number of taps.
fn telling_bands() -> Vec<(Band, u64)> {
    let half = 4000.0;
    let mut all = vec![
        (hann(0.25, 1.0), 1),
        (hann(0.25, 1.0), 2),
        (windowed(2, f64::NAN), 2),
        (windowed(1, -1.0), 3),
        (windowed(2, 0.0), 5),
        (windowed(3, 8.0), 1),
        (windowed(3, 8.0), 2),
        (windowed(3, 8.0), 7),
        (hann(half, 8000.0), 5),
        (hann(neighbour(half, -1), 8000.0), 5),
        (hann(SMALLEST, 8000.0), 5),
        (hann(2.0 * SMALLEST, 5.0 * SMALLEST), 5),
        (hann(1e-300, 1.0), 5),
        (hann(-0.25, -1.0), 5),
        (hann(0.25, f64::INFINITY), 5),
        (hann(f64::NAN, 1.0), 5),
        (hann(0.6, 1.0), 0),
        (hann(0.6, 0.0), 0),
        (hann(0.25, 1.0), 0),
        (windowed(3, -1.0), 0),
        (windowed(3, f64::NAN), 5),
        (windowed(4, 0.0), 5),
        (windowed(u64::MAX, 0.0), 0),
    ];
    all.extend(UNKNOWN_WINDOWS.map(|window| (windowed(window, f64::NAN), 9)));
    for beta in [
        0.0,
        -0.0,
        SMALLEST,
        713.9,
        LARGEST_BETA,
        neighbour(LARGEST_BETA, 1),
        714.0,
        750.0,
        1000.0,
        1e308,
    ] {
        all.push((windowed(3, beta), 5));
    }
    all.push((windowed(3, 1000.0), 1));
    all.extend(ODD.map(|odd| (windowed(3, odd), 4)));
    all.extend(ODD.map(|odd| (hann(odd, 1.0), 4)));
    all.extend(ODD.map(|odd| (hann(0.25, odd), 4)));
    all
}

/// The telling low-passes about the last beta that settles, each with its number of taps.
fn telling_betas() -> Vec<(Band, u64)> {
    let kaiser = windowed(3, 1e3);
    let mut all = Vec::new();
    for beta in BETAS {
        all.extend([1, 2, 5, 6].map(|taps| (windowed(3, beta), taps)));
    }
    // A window that takes no series.
    all.extend([0, 1, 2].map(|window| (windowed(window, 1e3), 5)));
    let tiny = |beta| Band {
        cutoff: 1e-300,
        ..windowed(3, beta)
    };
    all.extend([
        // Two taps of 0, and the same where the series doesn't settle.
        (tiny(700.0), 2),
        (tiny(1e3), 2),
        // What is tested before the series: window, rate, cutoff, count, beta.
        (windowed(4, 1e3), 5),
        (
            Band {
                rate: 0.0,
                ..kaiser
            },
            5,
        ),
        (
            Band {
                cutoff: 0.5,
                ..kaiser
            },
            5,
        ),
        (kaiser, 0),
        (windowed(3, -1e3), 5),
        (windowed(3, f64::INFINITY), 1),
    ]);
    all
}

/// The telling tickets of a kind, those that tell most first.
pub fn telling(kind: Kind) -> Vec<Ticket> {
    match kind {
        Kind::LowpassNew => {
            let mut all = vec![
                // The limit is taken: with a beta that isn't, 4 and not 6 is the answer.
                (windowed(3, -1.0), CAP),
                (windowed(3, -1.0), CAP + 1),
            ];
            all.extend(telling_bands().drain(..33));
            for taps in COUNTS.into_iter().filter(|&taps| taps == 0 || taps > CAP) {
                all.push((hann(0.25, 1.0), taps));
                all.push((hann(0.5, 1.0), taps));
            }
            all.extend(telling_bands());
            all.extend(telling_betas());
            all.extend([CAP + 1, u64::MAX].map(|taps| (windowed(3, 1e3), taps)));
            all.into_iter()
                .map(|(band, taps)| Ticket::LowpassNew { band, taps })
                .collect()
        }
        Kind::Lowpass => {
            let mut all = vec![
                Ticket::Lowpass {
                    band: windowed(9, 0.0),
                    bytes: 13,
                },
                Ticket::Lowpass {
                    band: hann(0.0, 0.0),
                    bytes: 13,
                },
            ];
            let ticket = |(band, taps)| Ticket::Lowpass {
                band,
                bytes: 8 * taps,
            };
            all.extend(telling_bands().drain(..30).map(ticket));
            all.extend((1..9).map(|bytes| Ticket::Lowpass {
                band: hann(0.25, 1.0),
                bytes,
            }));
            all.extend(telling_bands().into_iter().map(ticket));
            all.extend(telling_betas().into_iter().map(ticket));
            all.extend([4, 13, 44].map(|bytes| Ticket::Lowpass {
                band: windowed(3, 1e3),
                bytes,
            }));
            all
        }
        _ => panic!("{kind:?} has tickets of its own"),
    }
}

impl Draw<'_> {
    pub fn band(&mut self) -> Band {
        let good = self.rate();
        let rate = self.number(good, &[0.0]);
        let fraction = match self.random.below(16) {
            0 => self.random.scaled(-40, -2),
            1 => self.random.scaled(-1022, -40),
            2 => neighbour(0.5, -self.random.between(1, 3)),
            _ => self.random.uniform(0.0, 0.5),
        };
        // The cutoff fits the good rate more often than the one that is offered with it.
        let good = if self.random.below(4) == 0 {
            fraction * rate
        } else {
            fraction * good
        };
        let tiny = rate * SMALLEST;
        let cutoff = self.number(good, &[rate / 2.0, rate / 2.0, 0.0, rate, tiny]);
        let window = if self.fault() && self.random.below(3) == 0 {
            let any = self.random.bits();
            let row = [4, 5, any | 4, UNKNOWN_WINDOWS[any as usize % 6]];
            self.one_of(&row)
        } else {
            self.one_of(&[0, 1, 2, 3, 3, 3])
        };
        let beta = self.beta();
        Band {
            cutoff,
            rate,
            window,
            beta,
        }
    }
}

/// A random ticket of a kind.
pub fn draw(kind: Kind, draw: &mut Draw) -> Ticket {
    match kind {
        Kind::LowpassNew => {
            let band = draw.band();
            let small = draw.taps();
            let mut taps = small;
            if draw.fault() {
                let any = draw.random.bits() | 1 << 40;
                let limit = draw.one_of(&COUNTS);
                taps = draw.one_of(&[0, 0, limit, any]);
            }
            let fraction = band.cutoff / band.rate;
            let refused = !(fraction > 0.0 && fraction < 0.5)
                || (band.window == 3 && !(band.beta >= 0.0 && band.beta < f64::INFINITY));
            if taps > RANDOM_TAPS && taps <= CAP && !refused {
                taps = small;
            }
            Ticket::LowpassNew { band, taps }
        }
        Kind::Lowpass => {
            let band = draw.band();
            let mut bytes = 8 * draw.taps();
            if draw.fault() {
                let more = draw.random.below(8);
                bytes = draw.one_of(&[0, 0, bytes, more]);
            }
            if draw.fault() {
                bytes += draw.random.below(8);
            }
            Ticket::Lowpass { band, bytes }
        }
        _ => panic!("{kind:?} has tickets of its own"),
    }
}

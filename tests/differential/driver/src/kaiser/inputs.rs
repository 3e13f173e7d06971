//! The tickets of the series, Kaiser's formulas and half samples of delay: telling ones, and random ones with faults.

use std::f64::consts::PI;

use crate::run::draw::{
    BETAS, CAP, COUNTS, Draw, LARGEST_BETA, NARROWEST, ODD, SMALLEST, around, neighbour,
};
use crate::run::tickets::{Kind, Ticket};

/// Attenuations at which the answer changes its nature.
pub const ATTENUATIONS: [f64; 6] = [8.0, -8.0, 21.0, 50.0, 0.0, 7.95];

/// The telling numbers of a kaiserord: ripple, transition, rate.
fn telling_orders() -> Vec<[f64; 3]> {
    let narrower = neighbour(NARROWEST, -1);
    let mut all = vec![
        [8.0, 1.0, 1.0],
        [60.0, -100.0, -8000.0],
        [60.0, 100.0, 8000.0],
        [60.0, NARROWEST, 1.0],
        [60.0, narrower, 1.0],
        [60.0, -narrower, -1.0],
        [-60.0, 100.0, 8000.0],
        [60.0, -100.0, 8000.0],
        [60.0, 100.0, -8000.0],
        [60.0, 1e308, 1.0],
        [60.0, 4e307, 0.5],
        [60.0, SMALLEST, 1e308],
        [60.0, SMALLEST, SMALLEST],
        [60.0, 0.0, 0.0],
        [60.0, 0.1, SMALLEST],
        [7.0, 0.0, 0.0],
        [f64::NAN, f64::NAN, f64::NAN],
        [1e308, 1e307, 1.0],
        [1e9, 0.1, 1.0],
    ];
    for limit in [8.0, 21.0, 50.0] {
        all.extend(around(limit).map(|ripple| [ripple, 0.2, 1.0]));
    }
    all.extend(ODD.map(|odd| [odd, 0.2, 1.0]));
    all.extend(ODD.map(|odd| [60.0, odd, 1.0]));
    all.extend(ODD.map(|odd| [60.0, 0.2, odd]));
    all
}

/// The telling tickets of a kind, those that tell most first.
pub fn telling(kind: Kind) -> Vec<Ticket> {
    match kind {
        Kind::BesselI0 => {
            let mut all = vec![0.0, -0.0];
            all.extend([
                1.0, -1.0, 5.65326, 8.0, 20.0, 100.0, 700.0, 750.0, 753.5, 850.0, 1000.0, 1e308,
            ]);
            all.extend(around(LARGEST_BETA));
            all.extend([1e-8, 6e-9, 7e-9, 1e-300, 0.5, 2.0, 3.0, 50.0, 714.0, 800.0]);
            all.extend(ODD);
            all.extend(BETAS);
            all.extend(BETAS.map(|beta| -beta));
            all.into_iter().map(|x| Ticket::BesselI0 { x }).collect()
        }
        Kind::KaiserBeta => {
            let mut all = vec![60.0, -60.0];
            all.extend([21.0, 50.0].iter().flat_map(|&limit| around(limit)));
            all.extend([
                8.0, 8.7, 20.0, 21.001, 25.0, 30.0, 40.0, 45.5, 49.9, 51.0, 80.0, 100.0, 120.0,
                -21.0, -50.0, 6488.0,
            ]);
            all.extend(ODD);
            all.into_iter()
                .map(|attenuation| Ticket::KaiserBeta { attenuation })
                .collect()
        }
        Kind::Kaiserord => telling_orders()
            .into_iter()
            .map(|[ripple, transition, rate]| Ticket::Kaiserord {
                ripple,
                transition,
                rate,
            })
            .collect(),
        Kind::HalfbandLen => telling_orders()
            .into_iter()
            .map(|[attenuation, transition, rate]| Ticket::HalfbandLen {
                transition,
                attenuation,
                rate,
            })
            .collect(),
        Kind::Delay => COUNTS
            .into_iter()
            .chain(4..12)
            .map(|taps| Ticket::Delay { taps })
            .collect(),
        _ => panic!("{kind:?} has tickets of its own"),
    }
}

impl Draw<'_> {
    /// An attenuation that is taken, of either sign.
    pub fn attenuation(&mut self) -> f64 {
        let size = match self.random.below(8) {
            0 => self.one_of(&[8.0, 21.0, 50.0, 60.0]),
            1 => self.random.uniform(20.0, 52.0),
            _ => self.random.uniform(8.0, 120.0),
        };
        if self.random.below(8) == 0 {
            -size
        } else {
            size
        }
    }

    /// A transition for which the estimate is about that number of taps.
    pub fn transition(&mut self, attenuation: f64, rate: f64, taps: f64) -> f64 {
        let width = (attenuation.abs() - 7.95) / 2.285 / (PI * (taps - 1.0));
        neighbour(width * rate / 2.0, self.random.between(-3, 3))
    }

    pub fn order(&mut self) -> [f64; 3] {
        let attenuation = self.attenuation();
        let good = self.rate();
        let transition = match self.random.below(8) {
            0 | 1 => self.transition(attenuation, good, CAP as f64),
            2 => {
                let taps = self.random.below(4000) as f64 + 2.0;
                self.transition(attenuation, good, taps)
            }
            3 => good * self.random.scaled(-30, 40),
            _ => good * self.random.uniform(0.0, 1.0),
        };
        let limits = [0.0, f64::MAX / 2.0, f64::MAX / PI, good];
        let ripple = self.number(attenuation, &ATTENUATIONS);
        let transition = self.number(transition, &limits);
        let rate = self.number(good, &limits);
        if self.random.below(5) == 0 {
            [ripple, -transition, -rate]
        } else {
            [ripple, transition, rate]
        }
    }
}

/// A random ticket of a kind.
pub fn draw(kind: Kind, draw: &mut Draw) -> Ticket {
    match kind {
        Kind::BesselI0 => {
            let good = match draw.random.below(8) {
                0 => draw.random.scaled(-40, 10),
                1 => draw.random.uniform(700.0, 900.0),
                2 => draw.random.uniform(0.0, 714.0),
                _ => draw.random.uniform(0.0, 20.0),
            };
            let good = draw.random.sign(good);
            let x = draw.number(good, &[0.0, LARGEST_BETA, -LARGEST_BETA, 753.5]);
            Ticket::BesselI0 { x }
        }
        Kind::KaiserBeta => {
            let good = draw.attenuation();
            let attenuation = draw.number(good, &[21.0, 50.0, -50.0, 8.7]);
            Ticket::KaiserBeta { attenuation }
        }
        Kind::Kaiserord => {
            let [ripple, transition, rate] = draw.order();
            Ticket::Kaiserord {
                ripple,
                transition,
                rate,
            }
        }
        Kind::HalfbandLen => {
            let [attenuation, transition, rate] = draw.order();
            Ticket::HalfbandLen {
                transition,
                attenuation,
                rate,
            }
        }
        Kind::Delay => {
            let any = draw.random.bits() >> draw.random.below(64);
            let taps = match draw.random.below(4) {
                0 => draw.one_of(&COUNTS),
                _ => any,
            };
            Ticket::Delay { taps }
        }
        _ => panic!("{kind:?} has tickets of its own"),
    }
}

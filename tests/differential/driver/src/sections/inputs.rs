//! The tickets of second-order sections, Butterworth filters and pre-emphasis: telling ones, and
//! random ones with faults.

use std::f64::consts::FRAC_1_SQRT_2;

use crate::run::draw::{Draw, ODD, SMALLEST, around, neighbour};
use crate::run::tickets::{Cascade, Kind, Section, Ticket};

/// Codes that no response has.
const UNKNOWN: [u64; 6] = [4, 5, 1 << 32, (1 << 32) + 1, 1 << 63, u64::MAX];

/// A rate at which 2 · PI times a centre is infinite.
const HUGE: f64 = 1.7e308;

fn section(response: u64, centre: f64, q: f64, rate: f64) -> Section {
    Section {
        response,
        centre,
        q,
        rate,
    }
}

fn cascade(response: u64, order: u64, cutoff: f64, rate: f64) -> Cascade {
    Cascade {
        response,
        order,
        cutoff,
        rate,
    }
}

/// The telling sections with buffers of the right length, those that tell most first.
fn telling_sections() -> Vec<Section> {
    let half = 4000.0;
    let mut all = vec![
        section(0, 1000.0, FRAC_1_SQRT_2, 48_000.0),
        section(1, 1000.0, FRAC_1_SQRT_2, 48_000.0),
        section(2, 1000.0, FRAC_1_SQRT_2, 48_000.0),
        section(3, 1000.0, FRAC_1_SQRT_2, 48_000.0),
        section(3, 0.25, 0.5, 1.0),
        // Numbers that aren't: accepted all the same.
        section(0, 8e307, 1.0, HUGE),
        section(3, 8e307, 1.0, HUGE),
        section(0, 0.1, SMALLEST, 1.0),
        section(2, 0.1, SMALLEST, 1.0),
        section(2, 0.1, f64::MAX, 1.0),
        // Several faults: the response, the centre or the rate, the quality.
        section(4, 0.6, 0.0, 1.0),
        section(0, 0.6, 0.0, 1.0),
        section(0, 0.1, 0.0, 1.0),
        section(0, 0.1, f64::INFINITY, 1.0),
        section(0, 0.1, f64::NAN, 1.0),
        section(0, 0.1, 1.0, -1.0),
        section(0, -0.1, 1.0, -1.0),
        section(0, 0.1, 1.0, f64::INFINITY),
        section(0, 0.1, 1.0, f64::NAN),
        section(0, f64::NAN, f64::NAN, f64::NAN),
        section(1, half, 1.0, 8000.0),
        section(1, neighbour(half, -1), 1.0, 8000.0),
        // Half of the rate underflows, and so does the quotient.
        section(0, SMALLEST, 1.0, 3.0 * SMALLEST),
        section(0, SMALLEST, 1.0, SMALLEST),
        section(3, SMALLEST, 1.0, 1e300),
    ];
    all.extend(UNKNOWN.map(|response| section(response, 0.1, 1.0, 1.0)));
    for response in 0..4 {
        all.extend(ODD.map(|odd| section(response, odd, 1.0, 1.0)));
        all.extend(ODD.map(|odd| section(response, 0.1, odd, 1.0)));
        all.extend(ODD.map(|odd| section(response, 0.1, 1.0, odd)));
        all.extend(around(0.5).map(|centre| section(response, centre, 1.0, 1.0)));
        all.push(section(response, 8e307, 1.0, HUGE));
        all.push(section(response, 0.2, SMALLEST, 1.0));
    }
    all
}

fn telling_biquads() -> Vec<Ticket> {
    let ticket = |section, bytes| Ticket::BiquadCoefs { section, bytes };
    let good = section(0, 0.1, 1.0, 1.0);
    let mut all = vec![
        // An unknown response, then the length, then everything else.
        ticket(section(4, 0.6, 0.0, 1.0), 33),
        ticket(section(0, 0.6, 0.0, 1.0), 33),
        ticket(good, 0),
        ticket(good, 39),
        ticket(good, 41),
        ticket(good, 48),
        ticket(good, 80),
    ];
    let sections = telling_sections().into_iter();
    all.extend(sections.map(|section| ticket(section, 40)));
    all.extend((0..50).map(|bytes| ticket(good, bytes)));
    all
}

fn telling_cascades() -> Vec<Ticket> {
    let ticket = |cascade, bytes| Ticket::ButterworthSos { cascade, bytes };
    let good = cascade(0, 4, 0.1, 1.0);
    let mut all = vec![
        ticket(cascade(0, 2, 0.1, 1.0), 40),
        ticket(cascade(1, 4, 1000.0, 48_000.0), 80),
        ticket(cascade(0, 6, 0.3, 1.0), 120),
        ticket(cascade(1, 8, 0.01, 1.0), 160),
        ticket(cascade(0, 3, 0.1, 1.0), 80),
        ticket(cascade(1, 5, 1000.0, 48_000.0), 120),
        ticket(cascade(0, 7, 0.3, 1.0), 160),
        // An unknown response, a length in bytes, a response that it hasn't, the order, a length
        // in numbers, the cutoff.
        ticket(cascade(4, 9, 0.6, 1.0), 33),
        ticket(cascade(2, 9, 0.6, 1.0), 33),
        ticket(cascade(2, 9, 0.6, 1.0), 40),
        ticket(cascade(3, 4, 0.1, 1.0), 80),
        ticket(cascade(0, 9, 0.6, 1.0), 40),
        ticket(cascade(2, 3, 0.6, 1.0), 40),
        ticket(cascade(0, 3, 0.6, 1.0), 40),
        ticket(cascade(0, 3, 0.6, 1.0), 80),
        ticket(cascade(0, 4, 0.6, 1.0), 48),
        ticket(cascade(0, 4, 0.6, 1.0), 40),
        ticket(cascade(0, 4, 0.6, 1.0), 80),
        ticket(cascade(0, 2, 0.1, 1.0), 48),
        ticket(cascade(0, 2, 0.1, 1.0), 16),
        ticket(good, 16),
        ticket(good, 64),
        ticket(good, 88),
        ticket(good, 120),
        ticket(good, 0),
        ticket(cascade(0, 4, 8e307, HUGE), 80),
        ticket(cascade(1, 2, 0.1, -1.0), 40),
        ticket(cascade(1, 2, 0.1, f64::INFINITY), 40),
        ticket(cascade(1, 2, f64::NAN, 1.0), 40),
        ticket(cascade(0, (1 << 32) + 4, 0.1, 1.0), 80),
        ticket(cascade(0, 0, 0.1, 1.0), 0),
    ];
    for order in [0, 1, 9, 10, 16, 1 << 32, (1 << 32) + 3, 1 << 63, u64::MAX] {
        all.push(ticket(cascade(0, order, 0.1, 1.0), 80));
    }
    for order in [2_u64, 4, 6, 8, 3, 5, 7] {
        let bytes = 40 * order.div_ceil(2);
        for response in 0..4 {
            // A quarter of the rate, where the pole of the first order is 0; next to half of it and
            // next to 0, where the pole is on the circle; and where 2 PI times the cutoff is infinite.
            for cutoff in [0.25, neighbour(0.5, -1), 0.4999999, 1e-9, 1e-17, SMALLEST] {
                all.push(ticket(cascade(response, order, cutoff, 1.0), bytes));
            }
            all.push(ticket(cascade(response, order, 8e307, HUGE), bytes));
            all.push(ticket(cascade(response, order, 0.2, 1.0), bytes));
            all.extend(ODD.map(|odd| ticket(cascade(response, order, odd, 1.0), bytes)));
            all.extend(ODD.map(|odd| ticket(cascade(response, order, 0.1, odd), bytes)));
        }
        all.extend((0..200).map(|bytes| ticket(cascade(1, order, 0.2, 1.0), bytes)));
    }
    all.extend(UNKNOWN.map(|response| ticket(cascade(response, 4, 0.1, 1.0), 80)));
    all
}

fn telling_preemphases() -> Vec<Ticket> {
    let ticket = |tau, rate, bytes| Ticket::PreemphasisCoefs { tau, rate, bytes };
    let mut all = vec![
        ticket(50e-6, 48_000.0, 24),
        ticket(75e-6, 44_100.0, 24),
        ticket(1e-3, 40_000.0, 24),
        // The length, the time constant, the rate.
        ticket(2e-3, 1.0, 33),
        ticket(2e-3, 1.0, 24),
        ticket(50e-6, 1.0, 24),
        ticket(50e-6, 48_000.0, 0),
        ticket(50e-6, 48_000.0, 16),
        ticket(50e-6, 48_000.0, 25),
        ticket(50e-6, 48_000.0, 32),
        // The pole's time constant is lost, then twice the rate is infinite too.
        ticket(50e-6, 8e307, 24),
        ticket(50e-6, HUGE, 24),
        ticket(SMALLEST, 48_000.0, 24),
    ];
    all.extend(around(1e-3).map(|tau| ticket(tau, 48_000.0, 24)));
    all.extend(around(40_000.0).map(|rate| ticket(50e-6, rate, 24)));
    all.extend(ODD.map(|tau| ticket(tau, 48_000.0, 24)));
    all.extend(ODD.map(|rate| ticket(50e-6, rate, 24)));
    all.extend((0..40).map(|bytes| ticket(50e-6, 48_000.0, bytes)));
    all
}

/// The telling tickets of a kind, those that tell most first.
pub fn telling(kind: Kind) -> Vec<Ticket> {
    match kind {
        Kind::BiquadCoefs => telling_biquads(),
        Kind::ButterworthSos => telling_cascades(),
        _ => telling_preemphases(),
    }
}

impl Draw<'_> {
    /// A known response, or a code that none has.
    fn response(&mut self, known: u64) -> u64 {
        if self.fault() && self.random.below(2) == 0 {
            let any = self.random.bits();
            let code = self.one_of(&UNKNOWN);
            self.one_of(&[code, code, code, any])
        } else {
            self.random.below(known)
        }
    }

    /// A centre or a cutoff, and a rate.
    fn edge(&mut self) -> [f64; 2] {
        let usual = self.rate();
        let good = match self.random.below(24) {
            0 => self.one_of(&[HUGE, f64::MAX, 6e307]),
            _ => usual,
        };
        let rate = self.number(good, &[0.0, SMALLEST, f64::MAX]);
        let half = good / 2.0;
        let good = match self.random.below(16) {
            0..=9 => self.random.uniform(0.0, half),
            10 => good / 4.0,
            11 => neighbour(half, self.random.between(-3, -1)),
            12 | 13 => half * self.random.scaled(-60, -1),
            14 => neighbour(0.0, self.random.between(1, 40)),
            _ => self.random.scaled(-1022, 1023),
        };
        [self.number(good, &[0.0, half, rate / 2.0]), rate]
    }

    fn quality(&mut self) -> f64 {
        let good = match self.random.below(16) {
            0..=8 => self.random.uniform(0.3, 20.0),
            9 | 10 => self.one_of(&[0.5, FRAC_1_SQRT_2, 1.0, 10.0]),
            11 => self.random.scaled(-1022, 1023),
            12 => neighbour(0.0, self.random.between(1, 40)),
            _ => self.random.scaled(-10, 10),
        };
        self.number(good, &[0.0, SMALLEST, f64::MAX, f64::INFINITY])
    }

    fn biquad(&mut self) -> Ticket {
        let response = self.response(4);
        let [centre, rate] = self.edge();
        let q = self.quality();
        let mut bytes = 40;
        if self.fault() {
            let any = self.random.below(100);
            bytes = self.one_of(&[0, 8, 24, 32, 33, 39, 41, 44, 48, 80, any]);
        }
        Ticket::BiquadCoefs {
            section: section(response, centre, q, rate),
            bytes,
        }
    }

    fn butterworth(&mut self) -> Ticket {
        let known = if self.fault() { 4 } else { 2 };
        let response = self.response(known);
        let good = 2 + self.random.below(7);
        let any = self.random.bits();
        let order = if self.fault() {
            let row = [0, 1, 9, 10, any, any % 16, (1 << 32) + good, u64::MAX];
            self.one_of(&row)
        } else {
            good
        };
        let [cutoff, rate] = self.edge();
        let mut numbers = 5 * good.div_ceil(2);
        if self.fault() {
            let row = [
                numbers - 1,
                numbers + 1,
                numbers - 5,
                numbers + 5,
                0,
                3 * good,
            ];
            numbers = self.one_of(&row);
        }
        let mut bytes = 8 * numbers;
        if self.fault() {
            bytes += self.random.below(8);
        }
        Ticket::ButterworthSos {
            cascade: cascade(response, order, cutoff, rate),
            bytes,
        }
    }

    fn preemphasis(&mut self) -> Ticket {
        let good = match self.random.below(16) {
            0..=9 => self.random.uniform(0.0, 1e-3),
            10..=13 => self.one_of(&[50e-6, 75e-6, 530e-6, 1e-3]),
            14 => self.random.scaled(-1022, -11),
            _ => neighbour(0.0, self.random.between(1, 40)),
        };
        let tau = self.number(good, &[0.0, 1e-3]);
        let good = match self.random.below(16) {
            0..=7 => self.one_of(&[44_100.0, 48_000.0, 240_000.0, 2.4e6]),
            8..=11 => self.random.uniform(40_000.0, 400_000.0),
            12 | 13 => self.random.scaled(16, 40),
            14 => self.random.scaled(16, 1023),
            _ => self.random.scaled(1020, 1023),
        };
        let rate = self.number(good, &[40_000.0, f64::MAX, f64::INFINITY]);
        let mut bytes = 24;
        if self.fault() {
            let any = self.random.below(60);
            bytes = self.one_of(&[0, 8, 16, 23, 25, 32, 33, 40, any]);
        }
        Ticket::PreemphasisCoefs { tau, rate, bytes }
    }
}

/// A random ticket of a kind.
pub fn draw(kind: Kind, draw: &mut Draw) -> Ticket {
    match kind {
        Kind::BiquadCoefs => draw.biquad(),
        Kind::ButterworthSos => draw.butterworth(),
        _ => draw.preemphasis(),
    }
}

//! The tickets of a channelizer: telling ones, and random ones with faults.

use std::f64::consts::PI;

use crate::run::draw::{CAP, Draw, ODD, SMALLEST, around, neighbour};
use crate::run::tickets::{Channels, Kind, Ticket};

/// Numbers of channels that aren't taken, or would be if they lost their upper bits.
const UNKNOWN_CHANNELS: [u64; 16] = [
    0,
    1,
    2,
    3,
    5,
    6,
    12,
    100,
    255,
    257,
    512,
    1024,
    1 << 32,
    (1 << 32) + 16,
    1 << 63,
    u64::MAX,
];

/// Numbers of taps of a branch that aren't taken.
const UNKNOWN_BRANCHES: [u64; 9] = [0, 1, 3, 33, 34, 64, (1 << 32) + 8, (1 << 63) + 4, u64::MAX];

fn asked(channels: u64, passband: f64, stopband: f64, attenuation: f64) -> Channels {
    Channels {
        channels,
        passband,
        stopband,
        attenuation,
    }
}

/// The width of a transition whose estimate is about that number of taps.
fn width(channels: u64, attenuation: f64, taps: f64) -> f64 {
    (attenuation - 7.95) / 2.285 / (PI * (taps - 1.0)) * channels as f64 / 2.0
}

/// The telling channelizers.
fn telling_channels() -> Vec<Channels> {
    let limit = width(4, 60.0, CAP as f64);
    let mut all = vec![
        asked(16, 0.5, 1.0, 60.0),
        asked(4, 0.5, 1.0, 60.0),
        asked(4, 0.4, 0.6, 20.0),
        asked(8, 0.1, 1.5, 120.0),
        // One fault after another: channels, passband, stopband, attenuation.
        asked(12, 0.0, 0.0, 0.0),
        asked(16, 0.0, 0.0, 0.0),
        asked(16, 0.5, 0.5, 0.0),
        asked(16, 0.5, 1.0, 0.0),
        asked(16, 0.5, neighbour(0.5, 1), 19.0),
        asked(12, 0.5, 1.0, 60.0),
        asked(16, 1.0, 0.5, 60.0),
        asked(16, 0.5, 1.6, 60.0),
        asked(16, 1.5, 1.5, 60.0),
        asked(16, 0.5, f64::NAN, 60.0),
        asked(16, f64::NAN, 1.0, 60.0),
        // The cutoff underflows, and the width does.
        asked(256, SMALLEST, 2.0 * SMALLEST, 60.0),
        asked(4, SMALLEST, 2.0 * SMALLEST, 60.0),
        asked(4, SMALLEST, 3.0 * SMALLEST, 60.0),
        asked(8, SMALLEST, 9.0 * SMALLEST, 60.0),
        // Too narrow, and just not.
        asked(16, 0.5, neighbour(0.5, 1), 60.0),
        asked(4, 1e-20, limit * (1.0 + 1e-12), 60.0),
        asked(4, 1e-20, limit * (1.0 - 1e-12), 60.0),
        asked(4, 1e-20, limit * (1.0 + 3e-8), 60.0),
        asked(256, 1e-3, 1.5, 20.0),
        asked(4, SMALLEST, 1.5, 21.0),
    ];
    all.extend(around(1.5).map(|stopband| asked(4, 0.5, stopband, 50.0)));
    all.extend(around(0.5).map(|stopband| asked(4, 0.5, stopband, 50.0)));
    for limit in [20.0, 21.0, 50.0, 120.0] {
        all.extend(around(limit).map(|attenuation| asked(4, 0.5, 1.0, attenuation)));
    }
    all.extend(UNKNOWN_CHANNELS.map(|channels| asked(channels, 0.5, 1.0, 60.0)));
    all.extend([4, 8, 16, 32, 64, 128, 256].map(|channels| asked(channels, 0.4, 0.9, 70.0)));
    all.extend(ODD.map(|odd| asked(4, odd, 1.0, 60.0)));
    all.extend(ODD.map(|odd| asked(4, 0.5, odd, 60.0)));
    all.extend(ODD.map(|odd| asked(4, 0.5, 1.0, odd)));
    all
}

/// The telling prototypes: the channelizer and the taps of a branch.
fn telling_prototypes() -> Vec<(Channels, u64)> {
    let good = asked(4, 0.5, 1.0, 60.0);
    let none = asked(12, 0.0, 0.0, 0.0);
    let mut all = vec![
        (good, 4),
        (good, 8),
        // The channels come before the branch, the branch before the edges.
        (none, 3),
        (none, 4),
        (asked(4, 0.0, 0.0, 0.0), 3),
        (asked(4, 0.5, 1.0, 0.0), 33),
        (asked(256, SMALLEST, 2.0 * SMALLEST, 60.0), 4),
        (asked(256, SMALLEST, 2.0 * SMALLEST, 60.0), 3),
    ];
    all.extend(UNKNOWN_BRANCHES.map(|branch| (good, branch)));
    all.extend(telling_channels().into_iter().map(|asked| (asked, 4)));
    all.extend([5, 6, 7].map(|branch| (good, branch)));
    all.push((asked(256, 0.5, 1.0, 60.0), 32));
    all
}

/// The number of taps that is asked for, or one that is as good as any other.
fn taps(asked: &Channels, branch: u64) -> u64 {
    if asked.channels <= 256 && branch <= 32 {
        asked.channels * branch
    } else {
        16
    }
}

/// The telling tickets of a kind, those that tell most first.
pub fn telling(kind: Kind) -> Vec<Ticket> {
    match kind {
        Kind::ChannelizerTaps => telling_channels()
            .into_iter()
            .map(|channels| Ticket::ChannelizerTaps { channels })
            .collect(),
        Kind::ChannelizerTapsPerBranch => telling_channels()
            .into_iter()
            .map(|channels| Ticket::ChannelizerTapsPerBranch { channels })
            .collect(),
        Kind::ChannelizerLowpass => telling_prototypes()
            .into_iter()
            .map(|(channels, branch)| Ticket::ChannelizerLowpass { channels, branch })
            .collect(),
        _ => {
            let ticket = |(channels, branch), bytes| Ticket::ChannelizerPrototype {
                channels,
                branch,
                bytes,
            };
            let good = (asked(4, 0.5, 1.0, 60.0), 4);
            let lost = (asked(256, SMALLEST, 2.0 * SMALLEST, 60.0), 4);
            let none = (asked(12, 0.0, 0.0, 0.0), 0);
            let mut all = vec![
                // A byte length that isn't whole comes before everything else, a wrong one after.
                ticket(none, 13),
                ticket(none, 16),
                ticket(lost, 8),
                ticket(good, 8 * 15),
                ticket(good, 8 * 17),
                ticket(good, 8 * 16 + 4),
                ticket(good, 0),
                ticket((asked(4, 0.5, 1.0, 0.0), 4), 8),
            ];
            all.extend(
                telling_prototypes().into_iter().map(|(channels, branch)| {
                    ticket((channels, branch), 8 * taps(&channels, branch))
                }),
            );
            all.extend((1..8).map(|more| ticket(good, 8 * 15 + more)));
            all
        }
    }
}

impl Draw<'_> {
    /// A channelizer of a number of channels that is taken, which may be made a fault.
    fn channels(&mut self, good: u64) -> Channels {
        let channels = if self.fault() {
            let any = self.random.bits();
            let row = [any % 300, any, self.one_of(&UNKNOWN_CHANNELS)];
            self.one_of(&row)
        } else {
            good
        };
        let good = match self.random.below(8) {
            0 => self.one_of(&[20.0, 21.0, 50.0, 60.0, 120.0]),
            1 => self.random.uniform(20.0, 52.0),
            _ => self.random.uniform(20.0, 120.0),
        };
        let attenuation = self.number(good, &[20.0, 120.0, 21.0, 50.0]);
        let (passband, stopband) = match self.random.below(32) {
            0 => (0.5, 1.0),
            1 => (self.random.uniform(0.0, 1.5), 1.5),
            // An estimate about 2^24: the narrower the passband, the finer the width.
            2 | 3 => {
                let edge = self.random.scaled(-60, -20);
                let part = self.random.uniform(-2e-7, 2e-7);
                (
                    edge,
                    edge + width(channels, attenuation, CAP as f64) * (1.0 + part),
                )
            }
            4 => {
                let edge = self.random.uniform(0.0, 1.4);
                (edge, neighbour(edge, self.random.between(1, 3)))
            }
            // Multiples of the smallest number; the cutoff of the least of them underflows.
            5 => {
                let most = self.one_of(&[3, 3, 40, 300]);
                let edge = f64::from_bits(1 + self.random.below(most));
                (edge, neighbour(edge, self.random.between(1, most as i64)))
            }
            6 => {
                let edge = self.random.scaled(-1022, -1);
                (edge, 2.0 * edge)
            }
            _ => {
                let edge = self.random.uniform(0.0, 1.4);
                (edge, self.random.uniform(edge, 1.5))
            }
        };
        Channels {
            channels,
            passband: self.number(passband, &[0.0, stopband, 1.5]),
            stopband: self.number(stopband, &[passband, passband, 1.5, 1.5]),
            attenuation,
        }
    }
}

/// A random ticket of a kind.
pub fn draw(kind: Kind, draw: &mut Draw) -> Ticket {
    if kind == Kind::ChannelizerTaps || kind == Kind::ChannelizerTapsPerBranch {
        let good = 4 << draw.random.below(7);
        let channels = draw.channels(good);
        return if kind == Kind::ChannelizerTaps {
            Ticket::ChannelizerTaps { channels }
        } else {
            Ticket::ChannelizerTapsPerBranch { channels }
        };
    }
    // Most prototypes are short.
    let (good, branches) = match draw.random.below(4000) {
        0 => (256, 29),
        1..=9 => (4 << draw.random.below(7), 29),
        10..=99 => (4 << draw.random.below(3), 29),
        100..=1199 => (8, 3),
        _ => (4, 6),
    };
    let channels = draw.channels(good);
    let mut branch = 4 + draw.random.below(branches);
    if draw.fault() {
        let any = draw.random.bits();
        let row = [any % 40, any, draw.one_of(&UNKNOWN_BRANCHES)];
        branch = draw.one_of(&row);
    }
    if kind == Kind::ChannelizerLowpass {
        return Ticket::ChannelizerLowpass { channels, branch };
    }
    let mut taps = taps(&channels, branch);
    if draw.fault() {
        let any = draw.random.below(40);
        taps = draw.one_of(&[taps.saturating_sub(1), taps + 1, 0, any]);
    }
    let mut bytes = 8 * taps;
    if draw.fault() {
        bytes += draw.random.below(8);
    }
    Ticket::ChannelizerPrototype {
        channels,
        branch,
        bytes,
    }
}

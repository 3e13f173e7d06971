//! What the kinds of channelizers must meet.

use crate::run::cases::{Case, IN_BYTES, IN_ELEMENTS, LENGTH, PLAIN, RANGE, case};
use crate::run::kinds::About;
use crate::run::tickets::{Channels, Kind, Ticket};

/// Whether the ticket is a channelizer's for which that holds.
fn of_channels(ticket: &Ticket, holds: impl FnOnce(Channels) -> bool) -> bool {
    ticket.channels().is_some_and(holds)
}

fn known(channels: u64) -> bool {
    channels.is_power_of_two() && (4..=256).contains(&channels)
}

fn positive(x: f64) -> bool {
    x > 0.0 && x < f64::INFINITY
}

const BY_CHANNELS: Case = case!("6 by the channels", |ticket, report| {
    report.number == 6 && of_channels(ticket, |asked| !known(asked.channels))
});

const BY_BRANCH: Case = case!("6 by the branch", |ticket, report| {
    report.number == 6 && of_channels(ticket, |asked| known(asked.channels))
});

const BY_PASSBAND: Case = case!("2 by the passband", |ticket, report| {
    (report.number, report.carries) == (2, PLAIN)
        && of_channels(ticket, |asked| !positive(asked.passband))
});

const BY_STOPBAND: Case = case!("2 by the stopband", |ticket, report| {
    (report.number, report.carries) == (2, PLAIN)
        && of_channels(ticket, |asked| positive(asked.passband))
});

const NARROW: Case = case!("3 by an estimate above 2^24", |ticket, report| {
    report.number == 3 && of_channels(ticket, |asked| asked.stopband - asked.passband > 1e-300)
});

const NO_WIDTH: Case = case!("3 by an infinite estimate", |ticket, report| {
    report.number == 3 && of_channels(ticket, |asked| asked.stopband - asked.passband < 1e-320)
});

const CUTOFF_LOST: Case = case!("2 by a cutoff that underflows", |_, report| {
    (report.number, report.carries, report.offered) == (2, RANGE, 0.0)
});

pub const KINDS: &[About] = &[
    About {
        kind: Kind::ChannelizerTaps,
        name: "channelizer_taps",
        number: 25,
        share: 8,
        refusals: &[(2, PLAIN), (3, PLAIN), (4, RANGE), (6, PLAIN)],
        totals: false,
        cases: &[
            BY_PASSBAND,
            BY_STOPBAND,
            NARROW,
            NO_WIDTH,
            case!("an even count", |_, report| report.count > 0
                && report.count.is_multiple_of(2)),
            case!("16777216 taps", |_, report| report.count == 1 << 24),
        ],
    },
    About {
        kind: Kind::ChannelizerTapsPerBranch,
        name: "channelizer_taps_per_branch",
        number: 26,
        share: 6,
        refusals: &[(2, PLAIN), (3, PLAIN), (4, RANGE), (6, PLAIN)],
        totals: false,
        cases: &[
            BY_PASSBAND,
            BY_STOPBAND,
            NARROW,
            NO_WIDTH,
            case!("a branch below 4", |_, report| report.is_accepted()
                && report.count < 4),
            case!("a branch above 32", |_, report| report.count > 32),
        ],
    },
    About {
        kind: Kind::ChannelizerLowpass,
        name: "channelizer_lowpass",
        number: 27,
        share: 6,
        refusals: &[(2, PLAIN), (2, RANGE), (4, RANGE), (6, PLAIN)],
        totals: false,
        cases: &[
            BY_CHANNELS,
            BY_BRANCH,
            BY_PASSBAND,
            BY_STOPBAND,
            CUTOFF_LOST,
            case!("8192 taps", |_, report| report.count == 8192),
        ],
    },
    About {
        kind: Kind::ChannelizerPrototype,
        name: "channelizer_prototype",
        number: 28,
        share: 8,
        refusals: &[(2, PLAIN), (2, RANGE), (4, RANGE), (6, PLAIN), (8, LENGTH)],
        totals: true,
        cases: &[
            IN_BYTES,
            IN_ELEMENTS,
            BY_CHANNELS,
            BY_BRANCH,
            BY_PASSBAND,
            BY_STOPBAND,
            CUTOFF_LOST,
            case!("2 before a wrong length", |ticket, report| {
                (report.number, report.carries) == (2, RANGE) && ticket.bytes() < 8 * 16
            }),
        ],
    },
];

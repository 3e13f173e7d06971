//! Wrong channelizers that the comparison must notice.

use sdrk_blocks::access::Lowpass;
use sdrk_blocks::design::{DesignWindow, kaiser_beta};

use crate::run::designers;
use crate::run::faults::{Fault, bad, changed, faults, of, reshaped, right, spoilt, swapped};
use crate::run::report::Report;
use crate::run::tickets::{Channels, Kind, Ticket};

fn asked(ticket: &Ticket) -> Channels {
    ticket.channels().expect("a channelizer")
}

fn branch(ticket: &Ticket) -> u64 {
    ticket.branch().expect("a branch")
}

/// The refusals, each as if it were tested first.
fn channels_refused(asked: Channels) -> Option<Report> {
    let taken = asked.channels.is_power_of_two() && (4..=256).contains(&asked.channels);
    (!taken).then(|| Report::plain(6))
}

fn branch_refused(branch: u64) -> Option<Report> {
    (!(4..=32).contains(&branch)).then(|| Report::plain(6))
}

fn edges_refused(asked: Channels) -> Option<Report> {
    let taken = asked.stopband > asked.passband && asked.stopband <= 1.5;
    (bad(asked.passband) || !taken).then(|| Report::plain(2))
}

fn attenuation_refused(asked: Channels) -> Option<Report> {
    (!(20.0..=120.0).contains(&asked.attenuation))
        .then(|| Report::range(4, 20.0, 120.0, asked.attenuation))
}

/// The refusal of a transition that is too narrow to estimate.
fn width_refused(asked: Channels) -> Option<Report> {
    let Channels { channels, .. } = asked;
    let known = Channels {
        attenuation: 60.0,
        ..asked
    };
    let refused = channels_refused(asked).or(edges_refused(asked)).is_some();
    let report = designers::rust(&Ticket::ChannelizerTaps { channels: known }).report;
    (!refused && channels > 0 && report.number == 3).then_some(report)
}

/// The number of taps of a prototype whose counts are taken.
fn count(ticket: &Ticket) -> Option<u64> {
    let (asked, branch) = (asked(ticket), branch(ticket));
    let refused = channels_refused(asked).or(branch_refused(branch));
    refused.is_none().then(|| asked.channels * branch)
}

fn length_refused(ticket: &Ticket) -> Option<Report> {
    let given = ticket.bytes() / 8;
    let count = count(ticket).filter(|&count| count != given)?;
    ticket
        .bytes()
        .is_multiple_of(8)
        .then(|| Report::length(count, given))
}

/// A prototype with another cutoff or window, or nothing where it is refused.
fn prototype(cutoff: f64, window: DesignWindow, taps: u64) -> Option<Lowpass> {
    Lowpass::new(cutoff, 1.0, window, taps as usize).ok()
}

fn kaiser(attenuation: f64) -> DesignWindow {
    DesignWindow::Kaiser {
        beta: kaiser_beta(attenuation),
    }
}

fn cutoff(asked: Channels) -> f64 {
    (asked.passband + asked.stopband) / (2.0 * asked.channels as f64)
}

/// The right answer with the divisor of another prototype.
fn of_prototype(ticket: &Ticket, buffer: &mut [u8], other: Option<Lowpass>) -> Report {
    let report = right(ticket, buffer);
    match other {
        Some(lowpass) if report.is_accepted() => Report {
            value: lowpass.divisor(),
            ..report
        },
        _ => report,
    }
}

pub const FAULTS: &[Fault] = faults![
    ChannelizerTaps, "the edges tested before the channels", |ticket, buffer| {
        swapped(ticket, buffer, 6, edges_refused(asked(ticket)))
    };
    ChannelizerTaps, "the attenuation tested before the edges", |ticket, buffer| {
        swapped(ticket, buffer, 2, attenuation_refused(asked(ticket)))
    };
    ChannelizerTaps, "the width tested before the attenuation", |ticket, buffer| {
        swapped(ticket, buffer, 4, width_refused(asked(ticket)))
    };
    ChannelizerTaps, "the count made odd", |ticket, buffer| {
        let report = right(ticket, buffer);
        Report { count: report.count + u64::from(report.count > 0) * (1 - report.count % 2), ..report }
    };
    ChannelizerTaps, "16777216 taps refused", |ticket, buffer| {
        let report = right(ticket, buffer);
        if report.count == 1 << 24 { Report::plain(3) } else { report }
    };
    ChannelizerTaps, "a stopband of 1.5 refused", |ticket, buffer| {
        let refused = asked(ticket).stopband == 1.5;
        swapped(ticket, buffer, 0, refused.then(|| Report::plain(2)))
    };
    ChannelizerTaps, "a stopband at the passband as too narrow", |ticket, buffer| {
        let asked = asked(ticket);
        let same = asked.stopband == asked.passband && asked.stopband <= 1.5 && !bad(asked.passband);
        swapped(ticket, buffer, 2, same.then(|| Report::plain(3)))
    };
    ChannelizerTaps, "a bad edge with its values", |ticket, buffer| {
        let asked = asked(ticket);
        changed(ticket, buffer, (2, 0), |_| Report::range(2, 0.0, 1.5, asked.stopband))
    };
    ChannelizerTaps, "an attenuation without its values", |ticket, buffer| {
        changed(ticket, buffer, (4, 1), |_| Report::plain(4))
    };
    ChannelizerTaps, "a narrow band with its values", |ticket, buffer| {
        let asked = asked(ticket);
        changed(ticket, buffer, (3, 0), |_| Report::range(3, 0.0, 1.5, asked.stopband))
    };
    ChannelizerTaps, "a narrow band refused with 2", |ticket, buffer| {
        changed(ticket, buffer, (3, 0), |_| Report::plain(2))
    };
    ChannelizerTaps, "any number of channels from 4 to 256", |ticket, buffer| {
        let asked = asked(ticket);
        changed(ticket, buffer, (6, 0), |report| {
            if (4..=256).contains(&asked.channels) { Report::accepted(118, 0.0) } else { report }
        })
    };
    ChannelizerTaps, "512 channels taken", |ticket, buffer| {
        let asked = asked(ticket);
        changed(ticket, buffer, (6, 0), |report| {
            if asked.channels == 512 { Report::accepted(118, 0.0) } else { report }
        })
    };
    ChannelizerTaps, "the lower half of a number of channels", |ticket, buffer| {
        let asked = asked(ticket);
        let channels = asked.channels % (1 << 32);
        of(Ticket::ChannelizerTaps { channels: Channels { channels, ..asked } }, buffer)
    };
    ChannelizerTaps, "20 dB refused", |ticket, buffer| {
        let refused = asked(ticket).attenuation == 20.0;
        swapped(ticket, buffer, 0, refused.then(|| Report::range(4, 20.0, 120.0, 20.0)))
    };
    ChannelizerTaps, "the taps of a branch", |ticket, buffer| {
        of(Ticket::ChannelizerTapsPerBranch { channels: asked(ticket) }, buffer)
    };
    ChannelizerTapsPerBranch, "rounded down", |ticket, buffer| {
        let channels = asked(ticket);
        let report = of(Ticket::ChannelizerTaps { channels }, buffer);
        Report { count: report.count / channels.channels.max(1), ..report }
    };
    ChannelizerTapsPerBranch, "one more for every count", |ticket, buffer| {
        let channels = asked(ticket);
        let report = of(Ticket::ChannelizerTaps { channels }, buffer);
        if report.is_accepted() {
            Report { count: report.count / channels.channels + 1, ..report }
        } else {
            report
        }
    };
    ChannelizerTapsPerBranch, "at least 4", |ticket, buffer| {
        let report = right(ticket, buffer);
        Report { count: if report.is_accepted() { report.count.max(4) } else { 0 }, ..report }
    };
    ChannelizerTapsPerBranch, "above 32 refused", |ticket, buffer| {
        let report = right(ticket, buffer);
        if report.count > 32 { Report::plain(6) } else { report }
    };
    ChannelizerTapsPerBranch, "the width tested before the attenuation", |ticket, buffer| {
        swapped(ticket, buffer, 4, width_refused(asked(ticket)))
    };
    ChannelizerLowpass, "the branch tested after the edges", |ticket, buffer| {
        let asked = asked(ticket);
        let other = edges_refused(asked).filter(|_| channels_refused(asked).is_none());
        swapped(ticket, buffer, 6, other)
    };
    ChannelizerLowpass, "the channels tested after the edges", |ticket, buffer| {
        let other = edges_refused(asked(ticket)).filter(|_| branch_refused(branch(ticket)).is_none());
        swapped(ticket, buffer, 6, other)
    };
    ChannelizerLowpass, "the attenuation tested before the edges", |ticket, buffer| {
        let asked = asked(ticket);
        changed(ticket, buffer, (2, 0), |report| attenuation_refused(asked).unwrap_or(report))
    };
    ChannelizerLowpass, "a narrow band refused", |ticket, buffer| {
        swapped(ticket, buffer, 0, width_refused(asked(ticket)))
    };
    ChannelizerLowpass, "33 taps a branch taken", |ticket, buffer| {
        let asked = asked(ticket);
        let taken = branch(ticket) == 33 && channels_refused(asked).is_none();
        let right = edges_refused(asked).or(attenuation_refused(asked));
        swapped(ticket, buffer, 6, right.filter(|_| taken))
    };
    ChannelizerLowpass, "3 taps a branch taken", |ticket, buffer| {
        let asked = asked(ticket);
        let taken = branch(ticket) == 3 && channels_refused(asked).is_none();
        let right = edges_refused(asked).or(attenuation_refused(asked));
        swapped(ticket, buffer, 6, right.filter(|_| taken))
    };
    ChannelizerLowpass, "a cutoff that underflows without its values", |ticket, buffer| {
        changed(ticket, buffer, (2, 1), |_| Report::plain(2))
    };
    ChannelizerLowpass, "a cutoff that underflows refused with 10", |ticket, buffer| {
        changed(ticket, buffer, (2, 1), |_| Report::plain(10))
    };
    ChannelizerLowpass, "the stopband's limit as the largest cutoff", |ticket, buffer| {
        changed(ticket, buffer, (2, 1), |report| Report { largest: 1.5, ..report })
    };
    ChannelizerLowpass, "the passband as the cutoff", |ticket, buffer| {
        let asked = asked(ticket);
        let cutoff = asked.passband / asked.channels as f64;
        let taps = count(ticket).unwrap_or(16);
        of_prototype(ticket, buffer, prototype(cutoff, kaiser(asked.attenuation), taps))
    };
    ChannelizerLowpass, "one tap more", |ticket, buffer| {
        let report = right(ticket, buffer);
        Report { count: report.count + u64::from(report.is_accepted()), ..report }
    };
    ChannelizerPrototype, "the length tested first", |ticket, buffer| {
        let report = right(ticket, buffer);
        length_refused(ticket).unwrap_or(report)
    };
    ChannelizerPrototype, "the length tested before the low-pass", |ticket, buffer| {
        changed(ticket, buffer, (2, 1), |report| length_refused(ticket).unwrap_or(report))
    };
    ChannelizerPrototype, "the length tested before the attenuation", |ticket, buffer| {
        changed(ticket, buffer, (4, 1), |report| length_refused(ticket).unwrap_or(report))
    };
    ChannelizerPrototype, "the byte length tested after the channels", |ticket, buffer| {
        swapped(ticket, buffer, 8, channels_refused(asked(ticket)))
    };
    ChannelizerPrototype, "the byte length tested after the edges", |ticket, buffer| {
        swapped(ticket, buffer, 8, edges_refused(asked(ticket)))
    };
    ChannelizerPrototype, "the length in bytes", |ticket, buffer| {
        changed(ticket, buffer, (8, 2), |report| {
            if ticket.bytes().is_multiple_of(8) {
                Report::length(8 * report.expected, 8 * report.given)
            } else {
                report
            }
        })
    };
    ChannelizerPrototype, "expected and given exchanged", |ticket, buffer| {
        changed(ticket, buffer, (8, 2), |report| Report::length(report.given, report.expected))
    };
    ChannelizerPrototype, "a Hann window", |ticket, buffer| {
        let asked = asked(ticket);
        reshaped(ticket, buffer, |taps| {
            let other = prototype(cutoff(asked), DesignWindow::Hann, taps.len() as u64);
            if let Some(other) = other {
                *taps = (0..taps.len()).map(|i| other.tap(i)).collect();
            }
        })
    };
    ChannelizerPrototype, "always 60 dB", |ticket, buffer| {
        let asked = asked(ticket);
        reshaped(ticket, buffer, |taps| {
            if let Some(other) = prototype(cutoff(asked), kaiser(60.0), taps.len() as u64) {
                *taps = (0..taps.len()).map(|i| other.tap(i)).collect();
            }
        })
    };
    ChannelizerPrototype, "the right half mirrored from the left", |ticket, buffer| {
        reshaped(ticket, buffer, |taps| {
            let last = taps.len() - 1;
            for i in 0..taps.len() / 2 {
                taps[last - i] = taps[i];
            }
        })
    };
    ChannelizerPrototype, "the taps by their branches", |ticket, buffer| {
        let channels = asked(ticket).channels as usize;
        reshaped(ticket, buffer, |taps| {
            let length = taps.len() / channels;
            *taps = (0..taps.len()).map(|i| taps[i % length * channels + i / length]).collect();
        })
    };
    ChannelizerPrototype, "taps all 1/n", |ticket, buffer| {
        reshaped(ticket, buffer, |taps| *taps = vec![1.0 / taps.len() as f64; taps.len()])
    };
    ChannelizerPrototype, "the last tap left out", |ticket, buffer| {
        reshaped(ticket, buffer, |taps| taps.truncate(taps.len() - 1))
    };
    ChannelizerPrototype, "element 0 alone written", |ticket, buffer| {
        reshaped(ticket, buffer, |taps| taps.truncate(1))
    };
    ChannelizerPrototype, "nothing written", |ticket, _buffer| {
        designers::rust(ticket).report
    };
    ChannelizerPrototype, "10 for every ticket", |_ticket, _buffer| {
        Report::plain(10)
    };
    ChannelizerPrototype, "element 0 written before a length is refused", |ticket, buffer| {
        spoilt(ticket, buffer, 8)
    };
    ChannelizerPrototype, "element 0 written before an edge is refused", |ticket, buffer| {
        spoilt(ticket, buffer, 2)
    };
    ChannelizerPrototype, "a buffer cleared before an attenuation is refused", |ticket, buffer| {
        let report = right(ticket, buffer);
        if report.number == 4 {
            buffer.fill(0);
        }
        report
    };
];

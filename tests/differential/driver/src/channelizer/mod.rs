//! The Rust's answers to a channelizer, and the request's to one whose window doesn't settle.

pub mod bench;
pub mod faults;
pub mod inputs;
pub mod kinds;

use sdrk_blocks::access::Lowpass;
use sdrk_blocks::design::{
    channelizer_prototype, channelizer_taps, channelizer_taps_per_branch, kaiser_beta,
};
use sdrk_blocks::{Error, Result};

use crate::kaiser::settling::judged_taps;
use crate::run::designers::{Answer, counted, lent, recorded};
use crate::run::report::Report;
use crate::run::tickets::Channels;

/// The report of a channelizer's estimate. The Rust says stopband for a band that is too narrow
/// too, so it is asked whether it comes past the edges: then it refuses an attenuation of NaN.
fn estimated(asked: &Channels, answer: Result<usize>) -> Report {
    match answer {
        Err(Error::InvalidParameter {
            name: "stopband", ..
        }) if matches!(
            channelizer_taps(16, asked.passband, asked.stopband, f64::NAN),
            Err(Error::OutOfRange { .. })
        ) =>
        {
            Report::plain(3)
        }
        _ => counted(answer),
    }
}

/// The Rust's prototype of a channelizer as a record.
fn prototype(asked: &Channels, branch: u64) -> Result<Lowpass> {
    Lowpass::of_channelizer(
        asked.channels as usize,
        branch as usize,
        asked.passband,
        asked.stopband,
        asked.attenuation,
    )
}

/// The Rust's estimate of all taps.
pub fn count(asked: &Channels) -> Report {
    let channels = asked.channels as usize;
    estimated(
        asked,
        channelizer_taps(channels, asked.passband, asked.stopband, asked.attenuation),
    )
}

/// The Rust's estimate of a branch's taps.
pub fn count_per_branch(asked: &Channels) -> Report {
    let channels = asked.channels as usize;
    estimated(
        asked,
        channelizer_taps_per_branch(channels, asked.passband, asked.stopband, asked.attenuation),
    )
}

/// The answer, or 16 where the prototype's window doesn't settle, for which no attenuation that is
/// taken is large enough.
fn judged(answer: impl Into<Answer>, asked: &Channels, branch: u64) -> Answer {
    let taps = asked.channels.saturating_mul(branch);
    judged_taps(answer, kaiser_beta(asked.attenuation), taps)
}

/// The Rust's record of the prototype.
fn rust_record(asked: &Channels, branch: u64) -> Report {
    recorded(prototype(asked, branch))
}

/// The record of the prototype.
pub fn record(asked: &Channels, branch: u64) -> Report {
    judged(rust_record(asked, branch), asked, branch).report
}

/// The prototype in a buffer.
pub fn filled(asked: &Channels, branch: u64, bytes: u64) -> Answer {
    let answer = lent(
        bytes,
        |taps| {
            Ok(channelizer_prototype(
                asked.channels as usize,
                branch as usize,
                asked.passband,
                asked.stopband,
                asked.attenuation,
                taps,
            )?)
        },
        || rust_record(asked, branch),
    );
    judged(answer, asked, branch)
}

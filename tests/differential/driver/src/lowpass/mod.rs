//! The Rust's answers to a low-pass, and the request's to one whose window doesn't settle.

pub mod bench;
pub mod faults;
pub mod inputs;
pub mod kinds;

use sdrk_blocks::access::Lowpass;
use sdrk_blocks::design::{DesignWindow, firwin_lowpass};

use crate::kaiser::settling::judged_taps;
use crate::run::designers::{Answer, lent, recorded};
use crate::run::report::Report;
use crate::run::tickets::Band;

/// The Rust's window of a code, or nothing for a code it doesn't have.
fn window(band: &Band) -> Option<DesignWindow> {
    match band.window {
        0 => Some(DesignWindow::Hann),
        1 => Some(DesignWindow::Hamming),
        2 => Some(DesignWindow::Blackman),
        3 => Some(DesignWindow::Kaiser { beta: band.beta }),
        _ => None,
    }
}

/// The answer, or 16 where the window is Kaiser's and doesn't settle.
fn judged(answer: impl Into<Answer>, band: &Band, taps: u64) -> Answer {
    match window(band) {
        Some(DesignWindow::Kaiser { beta }) => judged_taps(answer, beta, taps),
        _ => answer.into(),
    }
}

/// The Rust's record of a low-pass with that window.
fn rust_record(band: &Band, window: DesignWindow, taps: u64) -> Report {
    recorded(Lowpass::new(band.cutoff, band.rate, window, taps as usize))
}

/// The record of a low-pass.
pub fn record(band: &Band, taps: u64) -> Report {
    match window(band) {
        None => Report::plain(7),
        Some(window) => judged(rust_record(band, window, taps), band, taps).report,
    }
}

/// The low-pass in a buffer.
pub fn filled(band: &Band, bytes: u64) -> Answer {
    let Some(window) = window(band) else {
        return Report::plain(7).into();
    };
    let answer = lent(
        bytes,
        |taps| Ok(firwin_lowpass(band.cutoff, band.rate, window, taps)?),
        || rust_record(band, window, bytes / 8),
    );
    judged(answer, band, bytes / 8)
}

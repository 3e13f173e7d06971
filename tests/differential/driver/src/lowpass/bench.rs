//! Times the low-pass on both sides.

use sdrk_blocks::design::{DesignWindow, firwin_lowpass};

use crate::run::bench::{BETA, CUTOFFS, time_design};
use crate::run::port;
use crate::run::tickets::Band;

pub fn run() {
    let kaiser = DesignWindow::Kaiser { beta: BETA };
    for (name, code, window, taps) in [
        ("lowpass, Kaiser", 3, kaiser, 31),
        ("lowpass, Kaiser", 3, kaiser, 255),
        ("lowpass, Kaiser", 3, kaiser, 1023),
        ("lowpass, Hann", 0, DesignWindow::Hann, 1023),
    ] {
        let band = |cutoff| Band {
            cutoff,
            rate: 1.0,
            window: code,
            beta: BETA,
        };
        time_design(
            name,
            (taps, "taps"),
            &CUTOFFS,
            |cutoff, out| port::lowpass(&band(cutoff), out).is_accepted(),
            |cutoff, out| firwin_lowpass(cutoff, 1.0, window, out).is_ok(),
        );
    }
}

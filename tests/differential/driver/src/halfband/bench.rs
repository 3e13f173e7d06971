//! Times the half-band on both sides.

use sdrk_blocks::design::halfband_taps;

use crate::run::bench::{BETA, time_design};
use crate::run::port;

pub fn run() {
    time_design(
        "halfband",
        (255, "taps"),
        &[BETA],
        |beta, out| port::halfband(beta, out).is_accepted(),
        |beta, out| halfband_taps(beta, out).is_ok(),
    );
}

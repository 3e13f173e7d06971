//! Times the Gaussian pulse on both sides.

use sdrk_blocks::design::gaussian;

use crate::run::bench::time_design;
use crate::run::port;
use crate::run::tickets::Pulse;

pub fn run() {
    let pulse = |bt| Pulse {
        bt,
        samples: 8,
        span: 8,
    };
    time_design(
        "gaussian",
        (65, "taps"),
        &[0.5],
        |bt, out| port::gaussian(&pulse(bt), out).is_accepted(),
        |bt, out| gaussian(bt, 8, 8, out).is_ok(),
    );
}

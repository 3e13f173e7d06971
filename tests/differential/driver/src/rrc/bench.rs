//! Times the root-raised-cosine pulse on both sides.

use sdrk_blocks::design::rrc;

use crate::run::bench::time_design;
use crate::run::port;
use crate::run::tickets::Cosine;

pub fn run() {
    let cosine = |rolloff| Cosine {
        rolloff,
        samples: 8,
        span: 16,
    };
    time_design(
        "rrc",
        (129, "taps"),
        &[0.35],
        |rolloff, out| port::rrc(&cosine(rolloff), out).is_accepted(),
        |rolloff, out| rrc(rolloff, 8, 16, out).is_ok(),
    );
}

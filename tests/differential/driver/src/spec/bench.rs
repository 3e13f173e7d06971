//! Times a spec's design on both sides.

use sdrk_blocks::design::DesignSpec;

use crate::run::bench::{CUTOFFS, time_design};
use crate::run::port;
use crate::run::tickets::Spec;

pub fn run() {
    let spec = |cutoff| Spec {
        cutoff,
        transition: 0.0125,
        attenuation: 60.0,
        rate: 1.0,
        max_taps: 1023,
    };
    time_design(
        "spec_design, 60 dB",
        (293, "taps"),
        &CUTOFFS,
        |cutoff, out| port::spec_design(&spec(cutoff), out).is_accepted(),
        |cutoff, out| {
            let spec = spec(cutoff);
            let design = DesignSpec {
                cutoff_hz: spec.cutoff,
                transition_hz: spec.transition,
                attenuation_db: spec.attenuation,
            };
            design.design(spec.rate, 1023, out).is_ok()
        },
    );
}

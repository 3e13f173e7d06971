//! Times a turn to a new cutoff and one to a new beta beside the port's design from nothing and the Rust's.

use std::hint::black_box;

use sdrk_blocks::design::{DesignWindow, firwin_lowpass};

use crate::retune::{Design, KAISER};
use crate::run::bench::{BETA, median, pass, times};
use crate::run::port;
use crate::run::tickets::Band;

/// One design in four ways: its numbers, and the records that one turn makes it of.
#[derive(Clone, Copy)]
struct Ways {
    band: Band,
    other_cutoff: Design,
    other_beta: Design,
}

/// Designs whose cutoffs and betas are all different, so that nothing is made anew of what was made before.
fn ways(taps: usize) -> Vec<Ways> {
    let mut bytes = vec![0; 8 * taps];
    let mut kept = |band: Band| port::design_lowpass(&band, &mut bytes).design;
    let band = |i: u32| Band {
        cutoff: 0.05 + 0.02 * f64::from(i),
        rate: 1.0,
        window: KAISER,
        beta: BETA - 0.5 + f64::from(i) / 15.0,
    };
    (0..16)
        .map(|i| Ways {
            band: band(i),
            other_cutoff: kept(Band {
                cutoff: 0.21,
                ..band(i)
            }),
            other_beta: kept(Band {
                beta: BETA,
                ..band(i)
            }),
        })
        .collect()
}

/// Prints for each number of taps the medians of the four, which take turns in the rounds, and the ratios of the medians
/// and of the least times: a new cutoff spares one series of many, which is less than what the medians of two runs part
/// by, so that neither alone tells.
pub fn run() {
    for taps in [31, 63, 293] {
        let ways = ways(taps);
        let mut outs = [const { Vec::new() }; 3];
        outs.fill(vec![0; 8 * taps]);
        let [designed, cutoffs, betas] = &mut outs;
        let mut floats = vec![0.0; taps];
        let [design, cutoff, beta, rust] = times([
            &mut || {
                pass(&ways, taps, |way| {
                    port::lowpass(&way.band, black_box(designed)).is_accepted()
                })
            },
            &mut || {
                pass(
                    &ways,
                    taps,
                    |Ways {
                         band, other_cutoff, ..
                     }| {
                        port::design_new_cutoff(
                            other_cutoff,
                            band.cutoff,
                            band.rate,
                            black_box(cutoffs),
                        )
                        .report
                        .is_accepted()
                    },
                )
            },
            &mut || {
                pass(
                    &ways,
                    taps,
                    |Ways {
                         band, other_beta, ..
                     }| {
                        port::design_new_beta(other_beta, band.beta, black_box(betas))
                            .report
                            .is_accepted()
                    },
                )
            },
            &mut || {
                pass(&ways, taps, |Ways { band, .. }| {
                    let window = DesignWindow::Kaiser { beta: band.beta };
                    firwin_lowpass(band.cutoff, band.rate, window, black_box(&mut floats)).is_ok()
                })
            },
        ])
        .map(|mut times| {
            let least = times.iter().copied().fold(f64::INFINITY, f64::min);
            (median(&mut times), least)
        });
        // The last of each pass is the same design.
        assert!(
            outs.iter().all(|out| *out == outs[0]),
            "a turn made other taps"
        );
        println!(
            "turns, Kaiser            {taps:4} taps      design {:8.3} us  new cutoff {:8.3} us  \
             new beta {:8.3} us  rust {:8.3} us",
            design.0, cutoff.0, beta.0, rust.0,
        );
        println!(
            "  over a design, by medians and by the least: new cutoff {:.3}, {:.3}; new beta {:.3}, {:.3}; \
             over the Rust's, by medians: {:.2}, {:.2}",
            cutoff.0 / design.0,
            cutoff.1 / design.1,
            beta.0 / design.0,
            beta.1 / design.1,
            cutoff.0 / rust.0,
            beta.0 / rust.0,
        );
    }
}

//! The lists of turns: telling ones, and random ones with faults.

use crate::lowpass;
use crate::lowpass::inputs::{hann, windowed};
use crate::retune::{KAISER, Turn};
use crate::run::draw::{BETAS, Draw, LARGEST_BETA, SMALLEST};
use crate::run::random::Random;
use crate::run::tickets::Band;

/// A turn, and the length of the buffer that is lent for it.
#[derive(Clone, Copy, Debug)]
pub struct Step {
    pub turn: Turn,
    pub bytes: u64,
}

/// A first design and the turns that follow it.
#[derive(Clone, Debug)]
pub struct List {
    pub band: Band,
    pub bytes: u64,
    pub steps: Vec<Step>,
}

fn cutoff(cutoff: f64, rate: f64) -> Turn {
    Turn::Cutoff { cutoff, rate }
}

fn beta(beta: f64) -> Turn {
    Turn::Beta { beta }
}

/// A list whose buffers fit, but for those that are given a length of their own.
fn list(band: Band, taps: u64, turns: &[(Turn, Option<u64>)]) -> List {
    let bytes = 8 * taps;
    let step = |&(turn, other): &(Turn, Option<u64>)| Step {
        turn,
        bytes: other.unwrap_or(bytes),
    };
    List {
        band,
        bytes,
        steps: turns.iter().map(step).collect(),
    }
}

/// Lists in which each refusal and each case is met.
pub fn telling() -> Vec<List> {
    let kaiser = Band {
        window: KAISER,
        beta: 8.0,
        ..hann(1000.0, 8000.0)
    };
    let long = [
        (beta(6.0), None),
        (cutoff(2000.0, 8000.0), None),
        (beta(f64::NAN), None),
        (beta(5.0), None),
        // At half its own rate, or beyond: another rate is given with it.
        (cutoff(2000.0, 3000.0), None),
        (cutoff(900.0, 3000.0), None),
        (cutoff(5000.0, 10_000.0), None),
        (cutoff(4500.0, 10_000.0), None),
        (cutoff(0.0, 8000.0), None),
        (cutoff(-1.0, -8000.0), None),
        (cutoff(SMALLEST, 8000.0), None),
        (cutoff(1000.0, 0.0), None),
        (cutoff(1000.0, f64::NAN), None),
        (cutoff(1000.0, f64::INFINITY), None),
        (cutoff(f64::INFINITY, 8000.0), None),
        (beta(7.0), Some(13)),
        (beta(7.0), Some(8 * 32)),
        (beta(-1.0), Some(8 * 32 + 1)),
        (cutoff(0.0, 0.0), Some(0)),
        (cutoff(0.0, 0.0), Some(8 * 31 + 4)),
        (beta(-0.0), None),
        (cutoff(1000.0, 44_100.0), None),
        (beta(-1.0), None),
        (beta(f64::INFINITY), None),
        (beta(1000.0), None),
        (cutoff(1000.0, 8000.0), None),
        (beta(5.5), None),
        (beta(5.5), None),
        (cutoff(1234.5, 8000.0), None),
    ];
    // The window of one tap is 1, whatever its series is.
    let one = [
        (beta(1000.0), None),
        (cutoff(0.3, 1.0), None),
        (beta(-1.0), None),
        (beta(1e308), None),
        (cutoff(0.5, 1.0), None),
        (beta(4.0), None),
        (cutoff(0.1, 3.0), None),
    ];
    let other = [
        (beta(6.0), None),
        (beta(f64::NAN), None),
        (beta(6.0), Some(13)),
        (beta(6.0), Some(8)),
        (cutoff(0.1, 1.0), None),
        (cutoff(0.5, 1.0), None),
        (beta(-0.0), None),
        (cutoff(2.0, 48.0), None),
        (cutoff(1.0, -1.0), Some(24)),
        (cutoff(1.0, -1.0), Some(7)),
    ];
    // About the last beta that settles, and beyond it.
    let mut edge: Vec<(Turn, Option<u64>)> = Vec::new();
    for new in BETAS {
        edge.extend([(beta(new), None), (cutoff(900.0, 8000.0), None)]);
    }
    edge.extend([
        (beta(1e3), Some(13)),
        (beta(1e3), Some(8 * 8)),
        (beta(-1e3), None),
        (beta(LARGEST_BETA), None),
        (beta(750.0), None),
        (beta(6.0), None),
    ]);
    // Two taps that are 0, by a new beta and by a new cutoff, and where the series doesn't settle.
    let nothing = [
        (cutoff(1e-300, 1.0), None),
        (beta(700.0), None),
        (beta(1e3), None),
        (cutoff(0.25, 1.0), None),
        (beta(700.0), None),
        (cutoff(1e-300, 1.0), None),
        (beta(1e3), None),
        (beta(0.0), None),
    ];
    let mut all = vec![
        list(kaiser, 31, &long),
        list(windowed(KAISER, 8.0), 1, &one),
        list(kaiser, 9, &edge),
        list(kaiser, 1, &edge),
        list(windowed(0, 1e3), 9, &edge),
        list(windowed(KAISER, 0.0), 2, &nothing),
    ];
    all.extend((0..3).map(|window| list(windowed(window, f64::NAN), 5, &other)));
    // Longer than what the port keeps of the raw taps between summing and writing them.
    let many = [
        (beta(6.0), None),
        (beta(1000.0), None),
        (cutoff(900.0, 3000.0), None),
        (beta(7.0), Some(8 * 1499)),
        (beta(7.0), None),
    ];
    all.push(list(kaiser, 1500, &many));
    all.push(list(windowed(2, 0.0), 1500, &many));
    for (band, taps) in [
        (windowed(4, 8.0), 5),
        (hann(0.25, 0.0), 5),
        (hann(0.5, 1.0), 5),
        (hann(0.25, 1.0), 0),
        (windowed(KAISER, -1.0), 5),
        (windowed(KAISER, 1000.0), 5),
        (windowed(KAISER, 750.0), 5),
        (windowed(KAISER, 1000.0), 2),
        (windowed(KAISER, 1000.0), 1),
        (windowed(KAISER, -1000.0), 5),
        (hann(0.25, 1.0), 2),
    ] {
        all.push(list(band, taps, &[]));
    }
    for beta in [8.0, 1000.0] {
        all.push(List {
            bytes: 13,
            ..list(windowed(KAISER, beta), 0, &[])
        });
    }
    all
}

/// The length of a buffer: as a rule so many taps, at times a part of one more or another number of them.
pub fn bytes(draw: &mut Draw, taps: u64) -> u64 {
    match draw.random.below(24) {
        0 => 8 * taps + 1 + draw.random.below(7),
        1 => {
            let any = draw.random.below(2 * taps + 2);
            8 * draw.one_of(&[0, taps + 1, taps.saturating_sub(1), any])
        }
        2 => draw.random.below(8 * taps + 24),
        _ => 8 * taps,
    }
}

/// A turn, with faults as a ticket of the low-pass has them; a window without a beta seldom gets one.
pub fn turn(draw: &mut Draw, window: u64) -> Turn {
    let betas = if window == KAISER { 4 } else { 1 };
    if draw.random.below(8) < betas {
        beta(draw.beta())
    } else {
        let band = draw.band();
        cutoff(band.cutoff, band.rate)
    }
}

/// A random list: as a rule the first design is taken, and Kaiser's window is the most frequent.
pub fn draw(random: &mut Random) -> List {
    let taps = match random.below(64) {
        0..=4 => 1,
        5..=62 => 1 + random.below(60),
        _ => 1 + random.below(400),
    };
    let spoilt = random.below(8) == 0;
    let band = loop {
        let mut band = Draw::new(random).band();
        if random.below(3) == 0 {
            band.window = KAISER;
        }
        if spoilt || lowpass::record(&band, taps).is_accepted() {
            break band;
        }
    };
    let first = if spoilt && random.below(4) == 0 {
        bytes(&mut Draw::new(random), taps)
    } else {
        8 * taps
    };
    let mut steps: Vec<Step> = Vec::new();
    for _ in 0..1 + random.below(40) {
        let mut draw = Draw::new(random);
        let turn = match steps.last() {
            Some(last) if draw.random.below(16) == 0 => last.turn,
            _ => turn(&mut draw, band.window),
        };
        let bytes = bytes(&mut draw, first / 8);
        steps.push(Step { turn, bytes });
    }
    List {
        band,
        bytes: first,
        steps,
    }
}

//! A few answers of the unchanged Rust files, and of the models in their place, that the scope document and its requests
//! give, to show that they run.

use std::f64::consts::PI;

use sdrk_blocks::access::Lowpass;
use sdrk_blocks::design::{
    BiquadResponse, DesignWindow, butterworth_sos, halfband_len, kaiserord, rrc_len,
};
use sdrk_core::C32;
use sdrk_core::kernels::channelize::{
    ChannelizeState, MAX_CHANNELS, MAX_TAPS_PER_BRANCH, MIN_CHANNELS, MIN_TAPS_PER_BRANCH,
};
use sdrk_core::num::q14_from_f64;
use sdrk_core::timing::{Delay, Timing};
use sdrk_core::window::bessel_i0;

use crate::kaiser::settling::{is_settled, settles};
use crate::run::designers::rust;
use crate::run::draw::LARGEST_BETA;
use crate::run::report::Report;
use crate::run::tickets::{Band, Cascade, Channels, Pulse, Section, Source, Spec, Ticket};

/// Whether the Rust's channelizer tells as many halves of a sample as its delay has half samples.
fn tells_half_samples(channels: usize, branch: usize) -> bool {
    let taps = channels * branch;
    let zeros = |n| vec![C32::new(0.0, 0.0); n];
    let half_samples = rust(&Ticket::Delay { taps: taps as u64 }).report.count;
    ChannelizeState::<C32, _, _, _>::new(
        vec![0.0; taps],
        channels,
        zeros(taps),
        zeros(channels / 2),
    )
    .is_ok_and(|state| Some(state.group_delay()) == Delay::new(half_samples, 2))
}

/// Of every prototype that a channelizer takes.
fn prototypes_tell_half_samples() -> bool {
    let mut channels = (MIN_CHANNELS..=MAX_CHANNELS).filter(|channels| channels.is_power_of_two());
    channels.all(|channels| {
        let mut branches = MIN_TAPS_PER_BRANCH..=MAX_TAPS_PER_BRANCH;
        branches.all(|branch| tells_half_samples(channels, branch))
    })
}

/// Whether the Rust refuses an order that the request's definition has in its place.
fn refuses(order: usize) -> bool {
    let mut sections = vec![[0.0; 5]; order.div_ceil(2)];
    butterworth_sos(BiquadResponse::Lowpass, order, 0.1, 1.0, &mut sections).is_err()
}

/// Whether the section that a filter of odd order ends with, twice, is the Rust's section with a
/// quality of 1/2, whose two poles are one. The nearer the cutoff comes to half the rate, the more
/// places 1 + cos w0 has lost, and the sine is as small.
fn twice_is_a_section(response: u64, order: u64, cutoff: f64) -> bool {
    let bytes = 20 * (order + 1);
    let cascade = Cascade {
        response,
        order,
        cutoff,
        rate: 1.0,
    };
    let numbers = rust(&Ticket::ButterworthSos { cascade, bytes }).taps;
    let Some(&[b0, b1, 0.0, a1, 0.0]) = numbers.last_chunk() else {
        return false;
    };
    let twice = [b0 * b0, 2.0 * b0 * b1, b1 * b1, 2.0 * a1, a1 * a1];
    let section = Section {
        response,
        centre: cutoff,
        q: 0.5,
        rate: 1.0,
    };
    let once = rust(&Ticket::BiquadCoefs { section, bytes: 40 }).taps;
    let near = 1e-15 / libm::sin(2.0 * PI * cutoff);
    once.iter()
        .zip(twice)
        .all(|(once, twice)| (once - twice).abs() < near)
}

/// At cutoffs from next to 0 to next to half the rate.
fn first_orders_are_half_a_section() -> bool {
    (1..500).all(|thousandths| {
        let cutoff = f64::from(thousandths) / 1000.0;
        [0, 1].into_iter().all(|response| {
            [3, 5, 7]
                .into_iter()
                .all(|order| twice_is_a_section(response, order, cutoff))
        })
    })
}

/// Whether the series settle that the request says do, and the others not: 0 if it does and 16 if not, its terms, and
/// whether the sum is infinite.
fn series_settle() -> bool {
    let series = |x| rust(&Ticket::BesselI0 { x }).report;
    let told = |report: Report| (report.number, report.count, report.value.is_infinite());
    let known = [
        (0.0, (0, 1, false)),
        (LARGEST_BETA, (0, 476, false)),
        (-LARGEST_BETA, (0, 476, false)),
        (LARGEST_BETA.next_up(), (16, 461, true)),
        (750.0, (16, 269, true)),
        (1e3, (16, 500, true)),
        (f64::NAN, (16, 500, false)),
        (f64::INFINITY, (16, 500, true)),
    ];
    known
        .into_iter()
        .all(|(x, answer)| told(series(x)) == answer)
}

/// Up to 713, by hundredths.
fn all_settle_up_to_713() -> bool {
    (0..=71_300).all(|hundredths| is_settled(f64::from(hundredths) / 100.0))
}

/// Windows that take a series that doesn't settle, and such as take none.
fn windows_settle() -> bool {
    let answers = [
        settles(1e3, 0, 0),
        settles(1e3, 0, 1),
        settles(1e3, 1, 1),
        settles(1e3, 1, 2),
        settles(LARGEST_BETA, 8, 9),
        settles(LARGEST_BETA.next_up(), 7, 8),
    ];
    answers == [true, true, false, false, true, false]
}

/// Prints one line; true if every answer is the one expected.
pub fn run() -> bool {
    let one_tap = Lowpass::new(0.25, 1.0, DesignWindow::Hann, 1);
    let spec = |rate| Spec {
        cutoff: 1000.0,
        transition: 100.0,
        attenuation: 60.0,
        rate,
        max_taps: 292,
    };
    let spec = |rate| rust(&Ticket::SpecNumTaps { spec: spec(rate) }).report;
    let hann = |cutoff, taps| {
        let band = Band {
            cutoff,
            rate: 1.0,
            window: 0,
            beta: 0.0,
        };
        rust(&Ticket::LowpassNew { band, taps }).report
    };
    let channels = Channels {
        channels: 16,
        passband: 0.5,
        stopband: 1.0,
        attenuation: 60.0,
    };
    let twelve = Channels {
        channels: 12,
        ..channels
    };
    let pulse = Pulse {
        bt: 0.5,
        samples: 8,
        span: 4,
    };
    let q15 = |tap| rust(&Ticket::Q15Tap { tap }).report;
    let source = Source {
        elements: vec![1.0, -1.0, 1.01],
        rest: 0,
        shift: 0,
    };
    let converted = rust(&Ticket::ToQ15 { source, bytes: 6 });
    let rrc = |samples, span| rust(&Ticket::RrcLen { samples, span }).report;
    let q14 = |x| rust(&Ticket::Q14FromF64 { x }).report;
    let half = 1.0 / 32768.0;
    let answers = [
        bessel_i0(0.0) == 1.0,
        kaiserord(8.0, 1.0, 1.0) == Ok((3, 0.0)),
        kaiserord(60.0, -100.0, -8000.0).is_ok_and(|(n, _)| n == 293),
        halfband_len(-100.0, 60.0, -8000.0) == Ok(295),
        rrc_len(2, 4) == Ok(9),
        rrc_len(1024, 32) == Ok(32769),
        rrc_len(1, 4).is_err(),
        one_tap.is_ok_and(|lowpass| lowpass.tap(0) == 1.0 && lowpass.divisor() == 0.5),
        Lowpass::new(0.25, 1.0, DesignWindow::Hann, 2).is_err(),
        (MIN_CHANNELS, MAX_CHANNELS) == (4, 256),
        prototypes_tell_half_samples(),
        series_settle(),
        all_settle_up_to_713(),
        windows_settle(),
        (spec(8000.0).number, spec(8000.0).expected) == (9, 293),
        spec(-8000.0).number == 1,
        hann(0.25, 2).number == 10,
        hann(0.5, 2).number == 2,
        rust(&Ticket::HalfbandNew { beta: 8.0, taps: 5 })
            .report
            .number
            == 6,
        rust(&Ticket::GaussianNew { pulse }).report.count == 33,
        rust(&Ticket::ChannelizerTaps { channels }).report.count == 118,
        rust(&Ticket::ChannelizerTapsPerBranch { channels })
            .report
            .count
            == 8,
        rust(&Ticket::ChannelizerTaps { channels: twelve })
            .report
            .number
            == 6,
        [q15(1.0).value, q15(-1.0).value] == [32767.0, -32768.0],
        [q15(1.0 / 65536.0).value, q15(-1.0 / 65536.0).value] == [1.0, 0.0],
        [q15(1.01).number, q15(f64::NAN).number] == [11, 11],
        converted.report.index == 2 && converted.fixed == [32767, -32768],
        [rrc(2, 4).count, rrc(1024, 32).count] == [9, 32769],
        (rrc(1, 4).number, rrc(1, 4).largest) == (6, 1024.0),
        [3, 5, 7].into_iter().all(refuses),
        first_orders_are_half_a_section(),
        q14_from_f64(-2.0 - half) == Some(-32768),
        q14_from_f64(2.0 - half).is_none(),
        q14(-2.0 - half).value == -32768.0,
        (q14(2.0 - half).number, q14(2.0 - half).largest) == (11, 2.0 - 2.0 * half),
    ];
    let right = answers.iter().filter(|&&answer| answer).count();
    println!("the Rust files: {right} of {} known answers", answers.len());
    right == answers.len()
}

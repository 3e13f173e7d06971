//! Each function of the root gives its export's answer, with the arguments in the export's order; and the
//! reports have the layout of the C header.

use std::collections::BTreeSet;
use std::mem::offset_of;

use peldozkar::raw::{self, GainReport, Loaded, Report, Tuned};
use peldozkar::{
    Cosines, HalfSamples, Lowpass, Response, Rrc, Series, Spec, Symmetry, Window, bessel_i0,
    biquad_coefs, blackman_harris, butterworth_sos, channelizer_lowpass, channelizer_prototype,
    channelizer_taps, channelizer_taps_per_branch, delay, gaussian, gaussian_new, halfband,
    halfband_len, halfband_new, hann, kaiser, kaiser_beta, kaiserord, lowpass, lowpass_new,
    preemphasis_coefs, q14_from_f64, q15_from_f64, q15_tap, rrc, rrc_len, rrc_new, to_f32,
    to_f32_sos, to_q14, to_q15, window_gain,
};

/// The last beta whose series settles, and the next number.
const LAST_SETTLED: f64 = 713.986_908_543_968_2;
const NEXT: f64 = 713.986_908_543_968_3;

/// The numbers that a raw call writes into that many bytes, which must be accepted.
#[track_caller]
fn written<const N: usize>(call: impl FnOnce(&mut [u8]) -> Report) -> (Report, [f64; N]) {
    let mut bytes = vec![0xA5; 8 * N];
    let report = call(&mut bytes);
    assert_eq!((report.number, report.count), (0, N as u64));
    let number = |i: usize| f64::from_le_bytes(bytes[8 * i..8 * i + 8].try_into().unwrap());
    (report, std::array::from_fn(number))
}

/// The same numbers as little-endian bytes.
fn packed<const N: usize, const W: usize, T>(
    numbers: impl IntoIterator<Item = T>,
    bytes: fn(T) -> [u8; W],
) -> [u8; N] {
    let all: Vec<u8> = numbers.into_iter().flat_map(bytes).collect();
    all.try_into().unwrap()
}

#[test]
fn layouts_are_those_of_the_header() {
    assert_eq!((size_of::<Report>(), align_of::<Report>()), (72, 8));
    let places = [
        offset_of!(Report, number),
        offset_of!(Report, carries),
        offset_of!(Report, smallest),
        offset_of!(Report, largest),
        offset_of!(Report, offered),
        offset_of!(Report, expected),
        offset_of!(Report, given),
        offset_of!(Report, index),
        offset_of!(Report, count),
        offset_of!(Report, value),
    ];
    assert_eq!(places, [0, 4, 8, 16, 24, 32, 40, 48, 56, 64]);
    assert_eq!((size_of::<GainReport>(), align_of::<GainReport>()), (48, 8));
    let places = [
        offset_of!(GainReport, number),
        offset_of!(GainReport, carries),
        offset_of!(GainReport, expected),
        offset_of!(GainReport, given),
        offset_of!(GainReport, count),
        offset_of!(GainReport, gain),
        offset_of!(GainReport, bandwidth),
    ];
    assert_eq!(places, [0, 4, 8, 16, 24, 32, 40]);
    assert_eq!(
        (size_of::<raw::Design>(), align_of::<raw::Design>()),
        (48, 8)
    );
    let places = [
        offset_of!(raw::Design, taps),
        offset_of!(raw::Design, fraction),
        offset_of!(raw::Design, window),
        offset_of!(raw::Design, beta),
        offset_of!(raw::Design, series),
        offset_of!(raw::Design, sum),
    ];
    assert_eq!(places, [0, 8, 16, 24, 32, 40]);
    assert_eq!(
        (size_of::<raw::Cosines>(), align_of::<raw::Cosines>()),
        (40, 8)
    );
    let places = [
        offset_of!(raw::Cosines, c0),
        offset_of!(raw::Cosines, c1),
        offset_of!(raw::Cosines, c2),
        offset_of!(raw::Cosines, c3),
        offset_of!(raw::Cosines, c4),
    ];
    assert_eq!(places, [0, 8, 16, 24, 32]);
    assert_eq!((size_of::<Loaded>(), align_of::<Loaded>()), (112, 8));
    assert_eq!(
        (offset_of!(Loaded, window), offset_of!(Loaded, report)),
        (0, 40)
    );
    assert_eq!((size_of::<Tuned>(), align_of::<Tuned>()), (120, 8));
    assert_eq!(
        (offset_of!(Tuned, design), offset_of!(Tuned, report)),
        (0, 48)
    );
    assert_eq!(
        (size_of::<raw::Ticket>(), align_of::<raw::Ticket>()),
        (48, 8)
    );
    assert_eq!(
        (
            offset_of!(raw::Ticket, kind),
            offset_of!(raw::Ticket, fields)
        ),
        (0, 8)
    );
    assert_eq!(
        (size_of::<raw::Reading>(), align_of::<raw::Reading>()),
        (120, 8)
    );
    assert_eq!(
        (
            offset_of!(raw::Reading, ticket),
            offset_of!(raw::Reading, report)
        ),
        (0, 48)
    );
    assert_eq!((size_of::<raw::Card>(), align_of::<raw::Card>()), (88, 8));
    let places = [
        offset_of!(raw::Card, tickets),
        offset_of!(raw::Card, place),
        offset_of!(raw::Card, report),
    ];
    assert_eq!(places, [0, 8, 16]);
}

#[test]
fn elementary_functions() {
    type Pair = (fn(f64) -> f64, extern "C" fn(f64) -> f64);
    let pairs: [Pair; 9] = [
        (peldozkar::floor, raw::pel_floor),
        (peldozkar::ceil, raw::pel_ceil),
        (peldozkar::fabs, raw::pel_fabs),
        (peldozkar::sqrt, raw::pel_sqrt),
        (peldozkar::sin, raw::pel_sin),
        (peldozkar::cos, raw::pel_cos),
        (peldozkar::exp, raw::pel_exp),
        (peldozkar::pow04, raw::pel_pow04),
        (kaiser_beta, raw::pel_kaiser_beta),
    ];
    for x in [-2.5, -0.0, 0.3, 2.5, 28.5, 60.5, f64::NAN] {
        for (root, export) in pairs {
            let (a, b) = (root(x), export(x));
            assert!(a.to_bits() == b.to_bits() || a.is_nan() && b.is_nan());
        }
    }
    // No two of them are the same function.
    let answers: BTreeSet<u64> = pairs.iter().map(|(root, _)| root(2.5).to_bits()).collect();
    assert_eq!(answers.len(), 9);
    assert_eq!(peldozkar::floor(2.5), 2.0);
    assert_eq!(peldozkar::ceil(2.5), 3.0);
}

#[test]
fn kaisers_formulas() {
    // Where it isn't settled, what is reached is told all the same.
    assert_eq!(NEXT.to_bits(), LAST_SETTLED.to_bits() + 1);
    for (x, settled, count) in [
        (3.5, true, None),
        (713.0, true, None),
        (LAST_SETTLED, true, Some(476)),
        (-LAST_SETTLED, true, Some(476)),
        (NEXT, false, Some(461)),
        (-NEXT, false, Some(461)),
        (750.0, false, Some(269)),
        (1e3, false, Some(500)),
        (f64::MAX, false, Some(500)),
        (f64::NEG_INFINITY, false, Some(500)),
    ] {
        let report = raw::pel_bessel_i0(x);
        let series = bessel_i0(x);
        let told = Report {
            number: if settled { 0 } else { raw::NOT_SETTLED },
            count: report.count,
            value: report.value,
            ..Report::default()
        };
        assert_eq!(report, told, "{x}");
        let want = Series {
            sum: report.value,
            terms: report.count,
            settled,
        };
        assert_eq!(series, want, "{x}");
        assert_eq!(series.sum.is_finite(), settled, "{x}");
        assert!(count.is_none_or(|count| count == series.terms), "{x}");
    }
    let none = bessel_i0(f64::NAN);
    assert!(none.sum.is_nan() && none.terms == 500 && !none.settled);
    let (taps, beta) = kaiserord(70.0, 300.0, 9000.0).unwrap();
    let report = raw::pel_kaiserord(70.0, 300.0, 9000.0);
    assert_eq!((taps, beta), (report.count, report.value));
    let report = raw::pel_halfband_len(300.0, 70.0, 9000.0);
    assert_eq!(halfband_len(300.0, 70.0, 9000.0), Ok(report.count));
    for taps in [1, 2, 31, 128, 1 << 53, (1 << 53) + 1, u64::MAX] {
        assert_eq!(delay(taps), Ok(HalfSamples(taps - 1)));
        assert_eq!(raw::pel_delay(taps).count, taps - 1);
    }
}

/// A knob that is turned has the taps and the record of a design from nothing, whatever was refused on the way.
#[test]
fn turned_knobs() {
    let mut taps = [0.0; 31];
    let mut knob = Lowpass::new(900.0, 8000.0, Window::Kaiser(8.0), &mut taps).unwrap();
    let mut last = (900.0, 8000.0, 8.0);
    let fresh = |(cutoff, rate, beta): (f64, f64, f64)| {
        let mut taps = [0.0; 31];
        let knob = Lowpass::new(cutoff, rate, Window::Kaiser(beta), &mut taps).unwrap();
        (knob, taps)
    };
    assert_eq!((knob, taps), fresh(last));
    let series = bessel_i0(8.0).sum;
    assert_eq!(knob.record().series, series);
    for step in 0..40_u32 {
        let value = f64::from(step);
        // Every third turn is one past half the rate, a beta below 0 or one that doesn't settle, and is refused.
        let answer = match step % 6 {
            0 | 2 => knob.new_cutoff(300.0 + 50.0 * value, 6000.0 + value, &mut taps),
            1 => knob.new_cutoff(4000.0, 8000.0, &mut taps),
            4 if step % 4 == 0 => knob.new_beta(LAST_SETTLED + value, &mut taps),
            4 => knob.new_beta(-value, &mut taps),
            _ => knob.new_beta(0.25 * value, &mut taps),
        };
        let refused = answer.err().map(|error| error.number());
        match step % 6 {
            0 | 2 => last = (300.0 + 50.0 * value, 6000.0 + value, last.2),
            3 | 5 => last.2 = 0.25 * value,
            1 => assert_eq!(refused, Some(2)),
            _ if step % 4 == 0 => assert_eq!(refused, Some(16)),
            _ => assert_eq!(refused, Some(4)),
        }
        assert_eq!(refused.is_some(), step % 3 == 1, "step {step}");
        assert_eq!((knob, taps), fresh(last), "step {step}");
        assert_eq!(
            knob.design(),
            lowpass_new(last.0, last.1, Window::Kaiser(last.2), 31).unwrap()
        );
    }
    // One tap takes no series, and keeps what that at beta reached.
    let mut one = [0.0];
    let mut knob = Lowpass::new(0.25, 1.0, Window::Kaiser(1e4), &mut one).unwrap();
    assert_eq!((knob.record().series, one), (bessel_i0(1e4).sum, [1.0]));
    knob.new_cutoff(0.125, 1.0, &mut one).unwrap();
    assert_eq!((knob.record().beta, one), (1e4, [1.0]));
    knob.new_beta(-0.0, &mut one).unwrap();
    assert_eq!(
        (knob.record().beta.to_bits(), knob.record().series),
        ((-0.0_f64).to_bits(), 1.0)
    );
}

#[test]
fn lowpass_filters() {
    let windows = [
        (Window::Hann, raw::HANN, 0.0),
        (Window::Hamming, raw::HAMMING, 0.0),
        (Window::Blackman, raw::BLACKMAN, 0.0),
        (Window::Kaiser(6.5), raw::KAISER, 6.5),
        (Window::Kaiser(LAST_SETTLED), raw::KAISER, LAST_SETTLED),
    ];
    for (window, code, beta) in windows {
        let (report, want) = written::<31>(|out| raw::pel_lowpass(900.0, 8000.0, code, beta, out));
        let mut taps = [0.0; 31];
        let design = lowpass(900.0, 8000.0, window, &mut taps).unwrap();
        assert_eq!((design.taps, design.divisor), (31, report.value));
        assert_eq!(taps, want);
        assert_eq!(lowpass_new(900.0, 8000.0, window, 31), Ok(design));
    }
}

/// A loaded window has its coefficients to the bit, and designs with the record that C has; where a code has the same
/// window, both design the same.
#[test]
fn loaded_windows() {
    let named: [(&[f64], Option<Window>); 8] = [
        (&[0.5, 0.5], Some(Window::Hann)),
        (&[0.54, 0.46], Some(Window::Hamming)),
        (&[0.42, 0.5, 0.08], Some(Window::Blackman)),
        (&[0.35875, 0.48829, 0.14128, 0.01168], None),
        (&[0.355768, 0.487396, 0.144232, 0.012604], None),
        (
            &[
                0.215578947,
                0.41663158,
                0.277263158,
                0.083578947,
                0.006947368,
            ],
            None,
        ),
        (&[1.0], None),
        (&[1.0, -0.0, 0.5, -0.5, -5e-324], None),
    ];
    for (numbers, code) in named {
        let loaded = Cosines::load(numbers).unwrap();
        let mut want = [0.0; 5];
        want[..numbers.len()].copy_from_slice(numbers);
        assert_eq!(loaded.numbers().map(f64::to_bits), want.map(f64::to_bits));

        // The bytes at an odd address, as the raw layer takes them.
        let bytes: Vec<u8> = [7]
            .into_iter()
            .chain(numbers.iter().flat_map(|x| x.to_le_bytes()))
            .collect();
        let raw::Loaded { window, report } = raw::pel_load_cosines(&bytes[1..]);
        let told = Report {
            count: numbers.len() as u64,
            ..Report::default()
        };
        assert_eq!(report, told);
        let [c0, c1, c2, c3, c4] = want;
        assert_eq!(window, raw::Cosines { c0, c1, c2, c3, c4 });

        let (report, want) =
            written::<31>(|out| raw::pel_lowpass_cosines(900.0, 8000.0, window, out));
        let mut taps = [0.0; 31];
        let design = lowpass(900.0, 8000.0, Window::Cosines(loaded), &mut taps).unwrap();
        assert_eq!((design.taps, design.divisor), (31, report.value));
        assert_eq!(taps, want);
        assert_eq!(
            lowpass_new(900.0, 8000.0, Window::Cosines(loaded), 31),
            Ok(design)
        );
        assert_eq!(
            raw::pel_lowpass_cosines_new(900.0, 8000.0, window, 31),
            report
        );
        if let Some(code) = code {
            assert_eq!(lowpass(900.0, 8000.0, code, &mut taps), Ok(design));
            assert_eq!(taps.map(f64::to_bits), want.map(f64::to_bits));
        }
        // One tap has the window 1.
        let mut one = [0.0];
        let design = lowpass(0.25, 1.0, Window::Cosines(loaded), &mut one).unwrap();
        assert_eq!((design.divisor, one), (0.5, [1.0]));
    }
}

#[test]
fn specifications() {
    let spec = Spec {
        cutoff: 1000.0,
        transition: 900.0,
        attenuation: 55.0,
    };
    assert_eq!(spec.num_taps(8000.0, 31), Ok(31));
    let (report, want) =
        written::<31>(|out| raw::pel_spec_design(1000.0, 900.0, 55.0, 8000.0, 31, out));
    let mut taps = [0.0; 31];
    let design = spec.design(8000.0, 31, &mut taps).unwrap();
    assert_eq!((design.taps, design.divisor), (31, report.value));
    assert_eq!(taps, want);
    assert_eq!(spec.lowpass(8000.0, 31), Ok(design));
}

#[test]
fn halfbands_and_pulses() {
    let (report, want) = written::<11>(|out| raw::pel_halfband(4.5, out));
    let mut taps = [0.0; 11];
    let design = halfband(4.5, &mut taps).unwrap();
    assert_eq!((design.taps, design.divisor), (11, report.value));
    assert_eq!(taps, want);
    assert_eq!(halfband_new(4.5, 11), Ok(design));

    let (report, want) = written::<33>(|out| raw::pel_gaussian(0.4, 8, 4, out));
    let mut taps = [0.0; 33];
    let design = gaussian(0.4, 8, 4, &mut taps).unwrap();
    assert_eq!((design.taps, design.divisor), (33, report.value));
    assert_eq!(taps, want);
    assert_eq!(gaussian_new(0.4, 8, 4), Ok(design));

    let (report, want) = written::<33>(|out| raw::pel_rrc(0.4, 8, 4, out));
    let mut taps = [0.0; 33];
    let pulse = rrc(0.4, 8, 4, &mut taps).unwrap();
    let Rrc {
        taps: count,
        factor,
    } = pulse;
    assert_eq!((count, factor), (33, report.value));
    assert_eq!(taps, want);
    assert_eq!(rrc_new(0.4, 8, 4), Ok(pulse));
    // Sixty-four samples are taken, so many symbols aren't.
    assert_eq!(rrc_len(64, 4), Ok(257));
}

#[test]
fn channelizers() {
    let report = raw::pel_channelizer_taps(8, 0.4, 1.1, 70.0);
    assert_eq!(channelizer_taps(8, 0.4, 1.1, 70.0), Ok(report.count));
    let report = raw::pel_channelizer_taps_per_branch(8, 0.4, 1.1, 70.0);
    assert_eq!(
        channelizer_taps_per_branch(8, 0.4, 1.1, 70.0),
        Ok(report.count)
    );
    // 64 channels of 5 taps are taken, 5 channels aren't.
    let (report, want) =
        written::<320>(|out| raw::pel_channelizer_prototype(64, 5, 0.4, 1.1, 70.0, out));
    let mut taps = [0.0; 320];
    let design = channelizer_prototype(64, 5, 0.4, 1.1, 70.0, &mut taps).unwrap();
    assert_eq!((design.taps, design.divisor), (320, report.value));
    assert_eq!(taps, want);
    assert_eq!(channelizer_lowpass(64, 5, 0.4, 1.1, 70.0), Ok(design));
}

#[test]
fn sections() {
    let responses = [
        (Response::Lowpass, raw::LOWPASS),
        (Response::Highpass, raw::HIGHPASS),
        (Response::Bandpass, raw::BANDPASS),
        (Response::Notch, raw::NOTCH),
    ];
    for (response, code) in responses {
        let (_, want) = written::<5>(|out| raw::pel_biquad_coefs(code, 900.0, 0.8, 8000.0, out));
        assert_eq!(biquad_coefs(response, 900.0, 0.8, 8000.0), Ok(want));
    }
    for (response, code) in &responses[..2] {
        for order in [5, 6] {
            let (_, want) =
                written::<15>(|out| raw::pel_butterworth_sos(*code, order, 900.0, 8000.0, out));
            let mut out = [[0.0; 5]; 3];
            assert_eq!(
                butterworth_sos(*response, order, 900.0, 8000.0, &mut out),
                Ok(())
            );
            assert_eq!(out.as_flattened(), want);
        }
    }
    // The last section of an odd order, of first order: at a quarter of the rate its pole is 0, and it has half of a
    // sample and half of the one before, which a high-pass takes away.
    for (response, b1) in [(Response::Lowpass, 0.5), (Response::Highpass, -0.5)] {
        for order in [3, 5, 7] {
            let mut out = [[9.0; 5]; 4];
            let sections = &mut out[..order as usize / 2 + 1];
            assert_eq!(
                butterworth_sos(response, order, 0.25, 1.0, sections),
                Ok(())
            );
            assert_eq!(sections.last(), Some(&[0.5, b1, 0.0, 0.0, 0.0]));
        }
    }
    let (_, want) = written::<3>(|out| raw::pel_preemphasis_coefs(75e-6, 48000.0, out));
    assert_eq!(preemphasis_coefs(75e-6, 48000.0), Ok(want));
}

#[test]
fn conversions() {
    assert_eq!(q15_from_f64(-0.25), -8192);
    assert_eq!(q15_tap(-1.0), Ok(-32768));
    assert_eq!(q14_from_f64(-1.0), Ok(-16384));

    let source = [[0.1, -0.2, 0.3, -0.4, 0.5], [0.6, -0.7, 0.8, -0.9, 0.95]];
    let bytes: [u8; 80] = packed(source.as_flattened().iter().copied(), f64::to_le_bytes);
    let mut want = [0; 20];
    assert_eq!(raw::pel_to_q15(&bytes, &mut want).number, 0);
    let mut out = [0; 10];
    assert_eq!(to_q15(source.as_flattened(), &mut out), Ok(()));
    assert_eq!(packed(out, i16::to_le_bytes), want);
    assert_eq!(raw::pel_to_q14(&bytes, &mut want).number, 0);
    let mut out = [[0; 5]; 2];
    assert_eq!(to_q14(&source, &mut out), Ok(()));
    assert_eq!(packed(out.concat(), i16::to_le_bytes), want);

    let nearest = source.as_flattened().iter().map(|x| *x as f32);
    let mut out = [0.0; 10];
    assert_eq!(to_f32(source.as_flattened(), &mut out), Ok(()));
    assert!(nearest.clone().eq(out));
    let mut out = [[0.0; 5]; 2];
    assert_eq!(to_f32_sos(&source, &mut out), Ok(()));
    assert!(nearest.eq(out.concat()));
    let mut out = [0.0];
    assert_eq!(to_f32(&[f64::NAN], &mut out), Ok(()));
    assert_eq!(out[0].to_bits(), 0x7FC0_0000);
}

#[test]
fn windows() {
    for (symmetry, code) in [
        (Symmetry::Periodic, raw::PERIODIC),
        (Symmetry::Symmetric, raw::SYMMETRIC),
    ] {
        let (mut floats, mut numbers) = ([0.0_f32; 9], [0_i16; 9]);
        let (mut wide, mut narrow) = ([0; 36], [0; 18]);

        hann(symmetry, &mut floats);
        hann(symmetry, &mut numbers);
        assert_eq!(raw::pel_hann_f32(code, &mut wide).count, 9);
        assert_eq!(raw::pel_hann_q15(code, &mut narrow).count, 9);
        assert_eq!(packed(floats, f32::to_le_bytes), wide);
        assert_eq!(packed(numbers, i16::to_le_bytes), narrow);

        blackman_harris(symmetry, &mut floats);
        blackman_harris(symmetry, &mut numbers);
        assert_eq!(raw::pel_blackman_harris_f32(code, &mut wide).count, 9);
        assert_eq!(raw::pel_blackman_harris_q15(code, &mut narrow).count, 9);
        assert_eq!(packed(floats, f32::to_le_bytes), wide);
        assert_eq!(packed(numbers, i16::to_le_bytes), narrow);

        for beta in [LAST_SETTLED, 8.5] {
            kaiser(beta, symmetry, &mut floats).unwrap();
            kaiser(beta, symmetry, &mut numbers).unwrap();
            assert_eq!(raw::pel_kaiser_f32(beta, code, &mut wide).count, 9);
            assert_eq!(raw::pel_kaiser_q15(beta, code, &mut narrow).count, 9);
            assert_eq!(packed(floats, f32::to_le_bytes), wide);
            assert_eq!(packed(numbers, i16::to_le_bytes), narrow);
        }

        let (report, gain) = (raw::pel_window_gain(&wide), window_gain(&floats));
        assert_eq!(
            (gain.coherent, gain.bandwidth),
            (report.gain, report.bandwidth)
        );
    }
    let mut one = [0.0_f32];
    hann(Symmetry::Symmetric, &mut one);
    assert_eq!(one, [1.0]);
    hann(Symmetry::Periodic, &mut one);
    assert_eq!(one, [0.0]);
    // A window that sums to nothing.
    assert_eq!(window_gain(&[1.0, -1.0]).bandwidth, f64::INFINITY);
    assert!(window_gain(&[0.0]).bandwidth.is_nan());
}

#[test]
fn bytes_at_any_alignment() {
    let (_, want) = written::<7>(|out| raw::pel_halfband(4.5, out));
    for start in 0..8 {
        let mut bytes = [0xA5; 8 * 7 + 16];
        let report = raw::pel_halfband(4.5, &mut bytes[start..start + 56]);
        assert_eq!((report.number, report.count), (0, 7));
        assert_eq!(
            bytes[start..start + 56],
            packed::<56, 8, _>(want, f64::to_le_bytes)
        );
        assert!(
            bytes[..start]
                .iter()
                .chain(&bytes[start + 56..])
                .all(|byte| *byte == 0xA5)
        );
    }
    let report = raw::pel_halfband(4.5, &mut [0; 57]);
    assert_eq!((report.number, report.carries), (8, raw::LENGTH));
    assert_eq!((report.expected, report.given), (56, 57));
    assert_eq!(raw::pel_hann_f32(2, &mut []).number, 7);
    let report = raw::pel_window_gain(&[0; 6]);
    assert_eq!((report.number, report.expected, report.given), (8, 4, 6));
}

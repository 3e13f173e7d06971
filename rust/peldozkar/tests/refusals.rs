//! Every refusal by its number, with what it carries, and what it leaves of a buffer.

use peldozkar::{
    Carried, Cosines, Error, Lowpass, Reason, Response, Spec, Symmetry, Window, biquad_coefs,
    blackman_harris, butterworth_sos, channelizer_prototype, channelizer_taps, delay, gaussian,
    gaussian_new, halfband, halfband_len, halfband_new, hann, kaiser, kaiserord, lowpass,
    lowpass_new, preemphasis_coefs, q14_from_f64, q15_tap, raw, read_ticket, rrc, rrc_len, rrc_new,
    to_f32, to_f32_sos, to_q14, to_q15, window_gain,
};

const NAN: f64 = f64::NAN;
const INFINITY: f64 = f64::INFINITY;
/// The largest size that Q15 takes.
const Q15_LIMIT: f64 = (1.0 - 1.0 / 32768.0) * 1.01;
const Q14_LARGEST: f64 = 2.0 - 1.0 / 16384.0;

const GOOD: Spec = Spec {
    cutoff: 1000.0,
    transition: 100.0,
    attenuation: 60.0,
};

fn range(smallest: f64, largest: f64, offered: f64) -> Carried {
    Carried::Range {
        smallest,
        largest,
        offered,
    }
}

fn length(expected: u64, given: u64) -> Carried {
    Carried::Length { expected, given }
}

fn q15_element(index: u64, offered: f64) -> Carried {
    Carried::Element {
        index,
        smallest: -Q15_LIMIT,
        largest: Q15_LIMIT,
        offered,
    }
}

fn q14_element(index: u64, offered: f64) -> Carried {
    Carried::Element {
        index,
        smallest: -2.0,
        largest: Q14_LARGEST,
        offered,
    }
}

/// Holds an answer to a refusal's number, its reason and what it carries.
#[track_caller]
fn refused<T: std::fmt::Debug>(answer: Result<T, Error>, reason: Reason, carried: Carried) {
    let error = answer.expect_err("it must be refused");
    assert_eq!(error, Error { reason, carried });
    assert_eq!(error.number(), reason.number());
    let text = error.to_string();
    assert!(
        text.starts_with(&format!("refused with {}: ", reason.number())),
        "{text}"
    );
}

/// The same for a refusal that carries the number alone.
#[track_caller]
fn plain<T: std::fmt::Debug>(answer: Result<T, Error>, reason: Reason) {
    refused(answer, reason, Carried::Nothing);
}

/// Numbers of which no filter consists, NaNs among them, to be found again by their bits.
fn before<const N: usize>() -> [f64; N] {
    std::array::from_fn(|i| {
        if i % 3 == 1 {
            f64::from_bits(0xFFF1_2345_6789_ABCD)
        } else {
            -1e9 - i as f64
        }
    })
}

#[track_caller]
fn as_it_came(out: &[f64]) {
    let came = before::<64>();
    let bits = |x: &f64| x.to_bits();
    assert!(out.iter().map(bits).eq(came[..out.len()].iter().map(bits)));
}

/// Lends numbers to a call that is refused, and holds them to what they were.
#[track_caller]
fn lent<const N: usize, T>(call: impl FnOnce(&mut [f64]) -> Result<T, Error>) -> Result<T, Error> {
    let mut out = before::<N>();
    let answer = call(&mut out);
    as_it_came(&out);
    answer
}

#[test]
fn numbers_are_those_of_the_header() {
    let all = [
        Reason::Rate,
        Reason::Frequency,
        Reason::Transition,
        Reason::Attenuation,
        Reason::Shape,
        Reason::Count,
        Reason::Code,
        Reason::Length,
        Reason::Cap,
        Reason::Divisor,
        Reason::Element,
        Reason::CutShort,
        Reason::Kind,
        Reason::RecordLength,
        Reason::Unsettled,
        Reason::CoefficientCount,
        Reason::Coefficient,
        Reason::CoefficientSum,
    ];
    assert!(
        all.map(Reason::number)
            .into_iter()
            .eq((1..=14).chain(16..=19))
    );
    let named = [
        raw::BAD_RATE,
        raw::BAD_FREQUENCY,
        raw::BAD_TRANSITION,
        raw::BAD_ATTENUATION,
        raw::BAD_SHAPE,
        raw::BAD_COUNT,
        raw::BAD_CODE,
        raw::BAD_LENGTH,
        raw::TOO_MANY_TAPS,
        raw::BAD_SUM,
        raw::BAD_ELEMENT,
        raw::CUT_SHORT,
        raw::UNKNOWN_KIND,
        raw::BAD_RECORD_LENGTH,
        raw::NOT_SETTLED,
        raw::BAD_COEFFICIENT_COUNT,
        raw::BAD_COEFFICIENT,
        raw::BAD_COEFFICIENT_SUM,
    ];
    assert_eq!(all.map(Reason::number), named);
    assert_eq!(raw::ACCEPTED, 0);
    assert_eq!(Reason::Unknown(15).number(), 15);
    assert_eq!(Reason::Unknown(20).number(), 20);
}

#[test]
fn one_the_rate() {
    for rate in [0.0, -0.0, -8000.0, NAN, INFINITY] {
        plain(
            lent::<8, _>(|out| lowpass(1000.0, rate, Window::Hann, out)),
            Reason::Rate,
        );
        plain(
            lowpass_new(1000.0, rate, Window::Kaiser(NAN), 0),
            Reason::Rate,
        );
        plain(GOOD.num_taps(rate, 0), Reason::Rate);
        plain(GOOD.lowpass(rate, 0), Reason::Rate);
        plain(lent::<8, _>(|out| GOOD.design(rate, 0, out)), Reason::Rate);
    }
    refused(
        preemphasis_coefs(50e-6, 39999.0),
        Reason::Rate,
        range(40000.0, INFINITY, 39999.0),
    );
}

#[test]
fn two_a_frequency() {
    let carried = range(0.0, 4000.0, 4000.0);
    refused(
        lent::<8, _>(|out| lowpass(4000.0, 8000.0, Window::Hamming, out)),
        Reason::Frequency,
        carried,
    );
    refused(
        lowpass_new(0.0, 8000.0, Window::Blackman, 31),
        Reason::Frequency,
        range(0.0, 4000.0, 0.0),
    );
    let late = Spec {
        cutoff: 3951.0,
        ..GOOD
    };
    refused(
        late.num_taps(8000.0, 0),
        Reason::Frequency,
        range(0.0, 3950.0, 3951.0),
    );
    // The largest cutoff is rate/2 - transition/2 with each operation rounded: 2 - 0 smallest numbers here, where
    // (rate - transition)/2 is 1.
    let smallest = f64::from_bits(1);
    let tiny = |cutoff| Spec {
        cutoff,
        transition: smallest,
        attenuation: 60.0,
    };
    refused(
        tiny(3.0 * smallest).num_taps(3.0 * smallest, 1000),
        Reason::Frequency,
        range(0.0, 2.0 * smallest, 3.0 * smallest),
    );
    assert!(tiny(2.0 * smallest).num_taps(3.0 * smallest, 1000).is_ok());
    refused(
        biquad_coefs(Response::Notch, 4000.0, 1.0, 8000.0),
        Reason::Frequency,
        carried,
    );
    let mut sections = [before::<5>(); 2];
    refused(
        butterworth_sos(Response::Highpass, 4, -1.0, 8000.0, &mut sections),
        Reason::Frequency,
        range(0.0, 4000.0, -1.0),
    );
    sections.iter().for_each(|section| as_it_came(section));
    for (passband, stopband) in [(0.0, 1.0), (0.5, 0.5), (0.5, 1.6)] {
        let answer = channelizer_taps(16, passband, stopband, 60.0);
        assert_eq!(answer.unwrap_err().reason, Reason::Frequency);
    }
    // A NaN is told as it was offered.
    let error = lent::<8, _>(|out| lowpass(NAN, 8000.0, Window::Hann, out)).unwrap_err();
    assert_eq!(error.number(), 2);
    assert!(matches!(error.carried, Carried::Range { offered, .. } if offered.is_nan()));
    assert_ne!(error, error);
}

#[test]
fn three_the_transition() {
    plain(kaiserord(60.0, 0.0, 8000.0), Reason::Transition);
    plain(kaiserord(60.0, NAN, 8000.0), Reason::Transition);
    plain(halfband_len(100.0, 60.0, -8000.0), Reason::Transition);
    refused(
        kaiserord(60.0, 1e-6, 8000.0),
        Reason::Transition,
        range(0.0, 8000.0, 1e-6),
    );
    let flat = Spec {
        transition: -100.0,
        ..GOOD
    };
    refused(
        lent::<3, _>(|out| flat.design(8000.0, 1000, out)),
        Reason::Transition,
        range(0.0, 4000.0, -100.0),
    );
}

#[test]
fn four_the_attenuation_or_beta() {
    plain(kaiserord(7.9, 100.0, 8000.0), Reason::Attenuation);
    plain(halfband_len(100.0, NAN, 8000.0), Reason::Attenuation);
    for beta in [-1.0, NAN, INFINITY] {
        plain(
            lent::<8, _>(|out| lowpass(1000.0, 8000.0, Window::Kaiser(beta), out)),
            Reason::Attenuation,
        );
        plain(lent::<7, _>(|out| halfband(beta, out)), Reason::Attenuation);
        let mut samples = [7_i16; 4];
        plain(
            kaiser(beta, Symmetry::Periodic, &mut samples),
            Reason::Attenuation,
        );
        assert_eq!(samples, [7; 4]);
        plain(
            kaiser(beta, Symmetry::Symmetric, &mut [0.0_f32; 0]),
            Reason::Attenuation,
        );
    }
    refused(
        lent::<8, _>(|out| channelizer_prototype(16, 8, 0.5, 1.0, 121.0, out)),
        Reason::Attenuation,
        range(20.0, 120.0, 121.0),
    );
}

#[test]
fn five_a_shape() {
    refused(
        lent::<33, _>(|out| gaussian(0.1, 8, 4, out)),
        Reason::Shape,
        range(0.2, 1.0, 0.1),
    );
    refused(
        lent::<33, _>(|out| rrc(1.5, 8, 4, out)),
        Reason::Shape,
        range(0.05, 1.0, 1.5),
    );
    refused(
        biquad_coefs(Response::Bandpass, 1000.0, 0.0, 8000.0),
        Reason::Shape,
        range(0.0, INFINITY, 0.0),
    );
    refused(
        preemphasis_coefs(0.002, 1.0),
        Reason::Shape,
        range(0.0, 0.001, 0.002),
    );
}

#[test]
fn six_a_count() {
    plain(delay(0), Reason::Count);
    for taps in [0, (1 << 24) + 1, u64::MAX] {
        plain(
            lowpass_new(1000.0, 8000.0, Window::Hann, taps),
            Reason::Count,
        );
    }
    plain(halfband_new(5.0, 5), Reason::Count);
    plain(lent::<5, _>(|out| halfband(5.0, out)), Reason::Count);
    refused(gaussian_new(0.5, 0, 9), Reason::Count, range(2.0, 8.0, 9.0));
    refused(
        gaussian_new(0.5, 1, 4),
        Reason::Count,
        range(2.0, f64::from((1 << 24) - 1).div_euclid(4.0), 1.0),
    );
    refused(
        rrc_new(0.5, 1025, 3),
        Reason::Count,
        range(2.0, 1024.0, 1025.0),
    );
    refused(rrc_len(8, 33), Reason::Count, range(4.0, 32.0, 33.0));
    for order in [0, 1, 9, u64::MAX] {
        let mut sections = [before::<5>(); 2];
        plain(
            butterworth_sos(Response::Lowpass, order, 1000.0, 8000.0, &mut sections),
            Reason::Count,
        );
        sections.iter().for_each(|section| as_it_came(section));
    }
    for (channels, branch) in [(12, 8), (512, 8), (16, 3), (16, 33)] {
        let answer =
            lent::<64, _>(|out| channelizer_prototype(channels, branch, 0.5, 1.0, 60.0, out));
        assert_eq!(answer.unwrap_err().reason, Reason::Count);
    }
}

#[test]
fn seven_a_response_that_butterworth_has_not() {
    for response in [Response::Bandpass, Response::Notch] {
        let mut sections = [before::<5>(); 2];
        plain(
            butterworth_sos(response, 9, NAN, NAN, &mut sections),
            Reason::Code,
        );
        sections.iter().for_each(|section| as_it_came(section));
    }
}

#[test]
fn eight_a_length() {
    refused(
        lent::<64, _>(|out| GOOD.design(8000.0, 1000, out)),
        Reason::Length,
        length(293, 64),
    );
    refused(
        lent::<32, _>(|out| gaussian(0.5, 8, 4, out)),
        Reason::Length,
        length(33, 32),
    );
    refused(
        lent::<64, _>(|out| rrc(0.5, 8, 8, out)),
        Reason::Length,
        length(65, 64),
    );
    refused(
        lent::<64, _>(|out| channelizer_prototype(16, 8, 0.5, 1.0, 60.0, out)),
        Reason::Length,
        length(128, 64),
    );
    // Sections are told in numbers.
    for (order, expected) in [(4, 10), (3, 10), (7, 20)] {
        let mut sections = [before::<5>(); 3];
        refused(
            butterworth_sos(Response::Lowpass, order, 1000.0, 8000.0, &mut sections),
            Reason::Length,
            length(expected, 15),
        );
        sections.iter().for_each(|section| as_it_came(section));
    }

    let mut numbers = [7_i16; 2];
    refused(
        to_q15(&[NAN; 3], &mut numbers),
        Reason::Length,
        length(3, 2),
    );
    assert_eq!(numbers, [7; 2]);
    let mut numbers = [[7_i16; 5]; 2];
    refused(
        to_q14(&[[NAN; 5]], &mut numbers),
        Reason::Length,
        length(5, 10),
    );
    assert_eq!(numbers, [[7; 5]; 2]);
    let mut numbers = [7.0_f32; 3];
    refused(to_f32(&[], &mut numbers), Reason::Length, length(0, 3));
    assert_eq!(numbers, [7.0; 3]);
    let mut numbers = [[7.0_f32; 5]];
    refused(to_f32_sos(&[], &mut numbers), Reason::Length, length(0, 5));
    assert_eq!(numbers, [[7.0; 5]]);
}

#[test]
fn nine_a_cap() {
    let carried = Carried::Cap {
        needed: 293,
        allowed: 292,
        largest: 16_777_216.0,
    };
    refused(GOOD.num_taps(8000.0, 292), Reason::Cap, carried);
    refused(GOOD.lowpass(8000.0, 292), Reason::Cap, carried);
    refused(
        lent::<64, _>(|out| GOOD.design(8000.0, 292, out)),
        Reason::Cap,
        carried,
    );
}

#[test]
fn ten_a_divisor() {
    plain(
        lent::<2, _>(|out| lowpass(0.25, 1.0, Window::Hann, out)),
        Reason::Divisor,
    );
    // A Kaiser window's two taps are so small at so small a cutoff that they are 0.
    plain(
        lent::<2, _>(|out| lowpass(1e-20, 1.0, Window::Kaiser(713.0), out)),
        Reason::Divisor,
    );
}

/// The last beta whose series settles, and those that don't, the next number first.
const LAST_SETTLED: f64 = 713.986_908_543_968_2;
const UNSETTLED: [f64; 6] = [713.986_908_543_968_3, 714.0, 750.0, 754.0, 1e3, f64::MAX];

#[test]
fn sixteen_a_series_that_does_not_settle() {
    let deep = |attenuation| Spec {
        cutoff: 0.25,
        transition: 0.45,
        attenuation,
    };
    for beta in UNSETTLED {
        plain(
            lent::<8, _>(|out| lowpass(1000.0, 8000.0, Window::Kaiser(beta), out)),
            Reason::Unsettled,
        );
        plain(
            lowpass_new(1000.0, 8000.0, Window::Kaiser(beta), 2),
            Reason::Unsettled,
        );
        plain(
            lent::<8, _>(|out| Lowpass::new(1000.0, 8000.0, Window::Kaiser(beta), out)),
            Reason::Unsettled,
        );
        plain(lent::<7, _>(|out| halfband(beta, out)), Reason::Unsettled);
        plain(halfband_new(beta, 3), Reason::Unsettled);
        for symmetry in [Symmetry::Periodic, Symmetry::Symmetric] {
            let (mut numbers, mut floats) = ([7_i16; 4], [7.0_f32; 4]);
            plain(kaiser(beta, symmetry, &mut numbers), Reason::Unsettled);
            plain(kaiser(beta, symmetry, &mut floats), Reason::Unsettled);
            assert_eq!((numbers, floats), ([7; 4], [7.0; 4]));
        }
        // No series is taken for one tap, for no samples and for a symmetric window of one.
        let mut one = [0.0];
        let design = lowpass(1000.0, 8000.0, Window::Kaiser(beta), &mut one).unwrap();
        assert_eq!((design.divisor, one), (0.25, [1.0]));
        let (mut numbers, mut floats) = ([7_i16], [7.0_f32]);
        assert_eq!(kaiser(beta, Symmetry::Symmetric, &mut numbers), Ok(()));
        assert_eq!(kaiser(beta, Symmetry::Symmetric, &mut floats), Ok(()));
        assert_eq!((numbers, floats), ([32767], [1.0]));
        assert_eq!(kaiser::<f32>(beta, Symmetry::Periodic, &mut []), Ok(()));
        assert_eq!(kaiser::<i16>(beta, Symmetry::Symmetric, &mut []), Ok(()));
        plain(
            kaiser(beta, Symmetry::Periodic, &mut numbers),
            Reason::Unsettled,
        );
        plain(
            kaiser(beta, Symmetry::Periodic, &mut floats),
            Reason::Unsettled,
        );
        assert_eq!((numbers, floats), ([32767], [1.0]));
    }
    // What settles is taken.
    for beta in [713.0, LAST_SETTLED] {
        let mut taps = [0.0; 8];
        assert!(lowpass(1000.0, 8000.0, Window::Kaiser(beta), &mut taps).is_ok());
        assert!(halfband(beta, &mut taps[..7]).is_ok());
        assert!(kaiser(beta, Symmetry::Periodic, &mut [0.0_f32; 4]).is_ok());
        assert!(kaiser(beta, Symmetry::Symmetric, &mut [0_i16; 4]).is_ok());
    }
    // Kaiser's beta for so many dB; how many taps are needed takes no series.
    let mut taps = vec![0.0; 1005];
    assert!(deep(6487.71).design(1.0, 1005, &mut taps).is_ok());
    let before = taps.clone();
    let over = deep(6487.72);
    assert_eq!(over.num_taps(1.0, 1005), Ok(1005));
    plain(over.lowpass(1.0, 1005), Reason::Unsettled);
    plain(over.design(1.0, 1005, &mut taps), Reason::Unsettled);
    assert_eq!(taps, before);
}

/// Tickets with two faults: 16 comes after 1, 2, 6, 4, 7, 8 and 9, and before 10.
#[test]
fn sixteen_among_its_neighbours() {
    let low = |cutoff, rate, beta, taps| {
        lowpass_new(cutoff, rate, Window::Kaiser(beta), taps)
            .unwrap_err()
            .number()
    };
    assert_eq!(low(1000.0, 0.0, 1e4, 8), 1);
    assert_eq!(low(4000.0, 8000.0, 1e4, 8), 2);
    assert_eq!(low(1000.0, 8000.0, 1e4, 0), 6);
    assert_eq!(low(1000.0, 8000.0, 1e4, (1 << 24) + 1), 6);
    assert_eq!(low(1000.0, 8000.0, -1e4, 8), 4);
    assert_eq!(low(1000.0, 8000.0, 1e4, 8), 16);
    assert_eq!(low(1e-20, 1.0, 714.0, 2), 16);
    assert_eq!(low(1e-20, 1.0, 713.0, 2), 10);
    plain(halfband_new(1e4, 5), Reason::Count);
    plain(halfband_new(-1e4, 7), Reason::Attenuation);

    let deep = Spec {
        cutoff: 0.25,
        transition: 0.45,
        attenuation: 7000.0,
    };
    let needed = deep.num_taps(1.0, 2000).unwrap();
    let error = deep.lowpass(1.0, needed - 1).unwrap_err();
    assert_eq!(error.reason, Reason::Cap);
    refused(
        lent::<8, _>(|out| deep.design(1.0, needed, out)),
        Reason::Length,
        length(needed, 8),
    );
    plain(deep.lowpass(-1.0, needed), Reason::Rate);

    let mut taps = [0.0; 5];
    let mut knob = Lowpass::new(1000.0, 8000.0, Window::Hann, &mut taps).unwrap();
    plain(lent::<5, _>(|out| knob.new_beta(1e4, out)), Reason::Code);
    let mut knob = Lowpass::new(1000.0, 8000.0, Window::Kaiser(2.0), &mut taps).unwrap();
    refused(
        lent::<4, _>(|out| knob.new_beta(1e4, out)),
        Reason::Length,
        length(5, 4),
    );
    let mut two = [0.0; 2];
    let mut knob = Lowpass::new(1e-20, 1.0, Window::Kaiser(2.0), &mut two).unwrap();
    plain(
        lent::<2, _>(|out| knob.new_beta(713.0, out)),
        Reason::Divisor,
    );
    plain(
        lent::<2, _>(|out| knob.new_beta(714.0, out)),
        Reason::Unsettled,
    );
}

/// 17, 18 and 19, alone and two at a time: the first of them is told. What is refused by the raw layer leaves zeros.
#[test]
fn seventeen_to_nineteen_the_coefficients() {
    let near = 2.0_f64.powi(-40);
    let least = f64::from_bits(1);
    let above = f64::from_bits(1.0_f64.to_bits() + 1);
    for count in [0, 6, 7, 40] {
        let carried = range(1.0, 5.0, count as f64);
        // Good numbers, those that add up to something else, and those that are too large.
        for number in [1.0 / count.max(1) as f64, 1.0, -2.0, NAN] {
            let numbers = vec![number; count];
            refused(Cosines::load(&numbers), Reason::CoefficientCount, carried);
        }
    }
    for offered in [above, -above, 2.0, f64::MAX, INFINITY, -INFINITY] {
        // Alone, before 19, and the first of two.
        for numbers in [
            vec![offered],
            vec![1.0, 0.0, offered, -offered],
            vec![0.25, offered, NAN],
            vec![1.0, 0.0, 0.0, 0.0, offered],
        ] {
            refused(
                Cosines::load(&numbers),
                Reason::Coefficient,
                range(-1.0, 1.0, offered),
            );
        }
    }
    let error = Cosines::load(&[1.0, NAN]).unwrap_err();
    assert_eq!(error.reason, Reason::Coefficient);
    assert!(
        matches!(error.carried, Carried::Range { smallest: -1.0, largest: 1.0, offered } if offered.is_nan())
    );

    // The exact sum: a double's would lose the least number.
    for good in [
        vec![1.0, near],
        vec![1.0, -near],
        vec![1.0, near / 2.0, near / 2.0],
        vec![1.0, near, least, -least],
        vec![1.0, 1.0, -1.0],
    ] {
        assert!(Cosines::load(&good).is_ok(), "{good:?}");
    }
    for bad in [
        vec![1.0, near, least],
        vec![1.0, -near, -least],
        vec![least, near, 1.0],
        vec![1.0, near / 2.0, near / 2.0, least],
        vec![1.0, 1.0, -1.0, near, least],
        vec![0.5],
        vec![-1.0],
        vec![0.0; 5],
        vec![
            0.21557895,
            0.41663158,
            0.277263158,
            0.083578947,
            0.006947368,
        ],
    ] {
        plain(Cosines::load(&bad), Reason::CoefficientSum);
        let bytes: Vec<u8> = bad.iter().flat_map(|x| x.to_le_bytes()).collect();
        assert_eq!(
            raw::pel_load_cosines(&bytes).window,
            raw::Cosines::default()
        );
    }
    // Bytes that aren't whole numbers come before all of them.
    let report = raw::pel_load_cosines(&[0xFF; 47]).report;
    assert_eq!(
        (report.number, report.carries),
        (raw::BAD_LENGTH, raw::LENGTH)
    );
    assert_eq!((report.expected, report.given), (40, 47));
}

/// A design with a loaded window: 1, 2, 6 and 10, and never 7, 4 or 16. A knob has none.
#[test]
fn a_loaded_window_in_designs() {
    let hann = Window::Cosines(Cosines::load(&[0.5, 0.5]).unwrap());
    plain(
        lent::<8, _>(|out| lowpass(NAN, 0.0, hann, out)),
        Reason::Rate,
    );
    plain(lowpass_new(NAN, NAN, hann, 0), Reason::Rate);
    refused(
        lent::<8, _>(|out| lowpass(4000.0, 8000.0, hann, out)),
        Reason::Frequency,
        range(0.0, 4000.0, 4000.0),
    );
    refused(
        lowpass_new(0.0, 8000.0, hann, 0),
        Reason::Frequency,
        range(0.0, 4000.0, 0.0),
    );
    plain(lowpass(0.25, 1.0, hann, &mut []), Reason::Count);
    plain(lowpass_new(0.25, 1.0, hann, (1 << 24) + 1), Reason::Count);
    plain(
        lent::<2, _>(|out| lowpass(0.25, 1.0, hann, out)),
        Reason::Divisor,
    );
    plain(lowpass_new(0.25, 1.0, hann, 2), Reason::Divisor);
    // The zeros that a refused load leaves, and a record that no load gave.
    let report = raw::pel_lowpass_cosines_new(0.25, 1.0, raw::Cosines::default(), 31);
    assert_eq!(report.number, raw::BAD_SUM);
    let forged = raw::Cosines {
        c0: NAN,
        ..raw::Cosines::default()
    };
    assert_eq!(
        raw::pel_lowpass_cosines_new(0.25, 1.0, forged, 31).number,
        raw::BAD_SUM
    );
    assert_eq!(
        raw::pel_lowpass_cosines(0.25, 1.0, forged, &mut [0; 9]).number,
        raw::BAD_LENGTH
    );

    plain(
        lent::<8, _>(|out| Lowpass::new(1000.0, 8000.0, hann, out)),
        Reason::Code,
    );
    plain(
        lent::<0, _>(|out| Lowpass::new(NAN, NAN, hann, out)),
        Reason::Code,
    );
}

#[test]
fn eleven_an_element_after_a_prefix() {
    refused(q15_tap(1.01), Reason::Element, q15_element(0, 1.01));
    refused(q14_from_f64(2.0), Reason::Element, q14_element(0, 2.0));

    let mut numbers = [7_i16; 5];
    refused(
        to_q15(&[0.5, -1.0, -1.5, 0.25, 2.0], &mut numbers),
        Reason::Element,
        q15_element(2, -1.5),
    );
    assert_eq!(numbers, [16384, -32768, 7, 7, 7]);

    let mut numbers = [[7_i16; 5]; 2];
    let sections = [[1.0, -2.0, 0.5, 0.25, 0.0], [-1.0, INFINITY, NAN, 0.0, 0.0]];
    refused(
        to_q14(&sections, &mut numbers),
        Reason::Element,
        q14_element(6, INFINITY),
    );
    assert_eq!(
        numbers,
        [[16384, -32768, 8192, 4096, 0], [-16384, 7, 7, 7, 7]]
    );

    let mut numbers = [7_i16; 2];
    let error = to_q15(&[0.0, NAN], &mut numbers).unwrap_err();
    assert_eq!((error.number(), numbers), (11, [0, 7]));
    assert!(
        matches!(error.carried, Carried::Element { index: 1, offered, .. } if offered.is_nan())
    );
}

#[test]
fn empty_slices() {
    plain(
        lowpass(1000.0, 8000.0, Window::Hann, &mut []),
        Reason::Count,
    );
    plain(halfband(5.0, &mut []), Reason::Count);
    refused(
        GOOD.design(8000.0, 1000, &mut []),
        Reason::Length,
        length(293, 0),
    );
    refused(gaussian(0.5, 8, 4, &mut []), Reason::Length, length(33, 0));
    refused(
        butterworth_sos(Response::Lowpass, 2, 1000.0, 8000.0, &mut []),
        Reason::Length,
        length(5, 0),
    );
    assert_eq!(to_q15(&[], &mut []), Ok(()));
    assert_eq!(to_q14(&[], &mut []), Ok(()));
    assert_eq!(to_f32(&[], &mut []), Ok(()));
    assert_eq!(to_f32_sos(&[], &mut []), Ok(()));
    hann::<f32>(Symmetry::Periodic, &mut []);
    blackman_harris::<i16>(Symmetry::Symmetric, &mut []);
    assert_eq!(kaiser::<f32>(8.0, Symmetry::Periodic, &mut []), Ok(()));
    let gain = window_gain(&[]);
    assert_eq!((gain.coherent, gain.bandwidth), (0.0, 0.0));
}

#[test]
fn in_words() {
    fn told<T: std::fmt::Debug>(answer: Result<T, Error>) -> String {
        answer.unwrap_err().to_string()
    }
    assert_eq!(
        told(delay(0)),
        "refused with 6: a count of taps, orders, symbols, samples, channels or branches can't be taken"
    );
    assert_eq!(
        told(rrc_len(8, 33)),
        "refused with 6: a count of taps, orders, symbols, samples, channels or branches can't be taken \
         (smallest 4.0, largest 32.0, offered 33.0)"
    );
    assert_eq!(
        gaussian(0.5, 8, 4, &mut []).unwrap_err().to_string(),
        "refused with 8: the buffer's length is wrong (expected 33, given 0)"
    );
    assert_eq!(
        told(GOOD.num_taps(8000.0, 1)),
        "refused with 9: more taps are needed than are allowed (needed 293, allowed 1)"
    );
    assert_eq!(
        q14_from_f64(-3.0).unwrap_err().to_string(),
        "refused with 11: an element doesn't fit the format \
         (index 0, smallest -2.0, largest 1.99993896484375, offered -3.0)"
    );
    assert_eq!(
        told(halfband_new(1e3, 7)),
        "refused with 16: a Bessel series of Kaiser's window doesn't settle: take a beta of 713, or 6478 dB, at most"
    );
    assert_eq!(
        told(Cosines::load(&[0.25; 6])),
        "refused with 17: a cosine window has one to five coefficients (smallest 1.0, largest 5.0, offered 6.0)"
    );
    assert_eq!(
        told(Cosines::load(&[0.25, 1.5])),
        "refused with 18: a coefficient isn't finite, or its size is above 1 \
         (smallest -1.0, largest 1.0, offered 1.5)"
    );
    assert_eq!(
        told(Cosines::load(&[0.25, 0.5])),
        "refused with 19: the coefficients don't add up to 1: their exact sum may be off by 2^-40 at most"
    );
    assert_eq!(
        told(read_ticket(&[18, 0, 0, 0, 3])),
        "refused with 12: the bytes end inside a record"
    );
    assert_eq!(
        told(read_ticket(&[18, 0, 0, 0, 7, 0])),
        "refused with 13: the kind of ticket is unknown"
    );
    assert_eq!(
        told(read_ticket(&[19, 0, 0, 0, 3, 0])),
        "refused with 14: the record's length isn't its kind's"
    );
    // It is an error like any other.
    let boxed: Box<dyn std::error::Error + Send + Sync> = Box::new(delay(0).unwrap_err());
    assert!(boxed.source().is_none());
}

/// A turn that is refused leaves the record and the buffer; 7 comes before all else, a length before the numbers.
#[test]
fn turns_of_a_knob() {
    let mut taps = [0.0; 5];
    let mut knob = Lowpass::new(1000.0, 8000.0, Window::Hann, &mut taps).unwrap();
    let kept = knob;
    plain(lent::<3, _>(|out| knob.new_beta(NAN, out)), Reason::Code);
    refused(
        lent::<3, _>(|out| knob.new_cutoff(NAN, NAN, out)),
        Reason::Length,
        length(5, 3),
    );
    plain(
        lent::<5, _>(|out| knob.new_cutoff(NAN, NAN, out)),
        Reason::Rate,
    );
    refused(
        lent::<5, _>(|out| knob.new_cutoff(4000.0, 8000.0, out)),
        Reason::Frequency,
        range(0.0, 4000.0, 4000.0),
    );
    assert_eq!(knob, kept);
    let mut knob = Lowpass::new(1000.0, 8000.0, Window::Kaiser(2.0), &mut taps).unwrap();
    let kept = knob;
    refused(
        lent::<4, _>(|out| knob.new_beta(NAN, out)),
        Reason::Length,
        length(5, 4),
    );
    plain(
        lent::<5, _>(|out| knob.new_beta(NAN, out)),
        Reason::Attenuation,
    );
    for beta in UNSETTLED {
        plain(
            lent::<5, _>(|out| knob.new_beta(beta, out)),
            Reason::Unsettled,
        );
    }
    assert_eq!(knob, kept);
    plain(
        lent::<5, _>(|out| Lowpass::new(NAN, -1.0, Window::Hann, out)),
        Reason::Rate,
    );
}

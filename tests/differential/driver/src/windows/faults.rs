//! Wrong windows that the comparison must notice.

use std::f64::consts::PI;

use sdrk_core::num::q15_from_f64;
use sdrk_core::window::bessel_i0;

use crate::kaiser::faults::series_refused;
use crate::kaiser::settling::series;
use crate::run::designers::{self, Answer};
use crate::run::faults::{
    Fault, changed, cleared, faults, of, reshaped_fixed, reshaped_singles, right, swapped,
    write_fixed, write_singles,
};
use crate::run::report::Report;
use crate::run::tickets::{Form, Format, Kind, Ticket, Window};
use crate::windows::{divisor, unjudged};

fn window(ticket: &Ticket) -> Window {
    ticket.window().expect("a window")
}

/// The value of a window's form at place `n` of divisor `d`.
fn value(form: Form, n: f64, d: f64) -> f64 {
    let x = 2.0 * PI * n / d;
    match form {
        Form::Hann => 0.5 - 0.5 * libm::cos(x),
        Form::BlackmanHarris => {
            let [first, second, third] = [1.0, 2.0, 3.0].map(|times| libm::cos(times * x));
            0.35875 - 0.48829 * first + 0.14128 * second - 0.01168 * third
        }
        Form::Kaiser { beta } => {
            let t = 2.0 * n / d - 1.0;
            bessel_i0(beta * libm::sqrt((1.0 - t * t).max(0.0))) / bessel_i0(beta)
        }
    }
}

/// The right report; where it is accepted, the samples are the values of each place, rounded as
/// they should be.
fn revalued(ticket: &Ticket, buffer: &mut [u8], value: impl Fn(f64) -> f64) -> Report {
    let report = right(ticket, &mut []);
    let values: Vec<f64> = (0..report.count).map(|n| value(n as f64)).collect();
    match window(ticket).format {
        Format::F32 => {
            let samples: Vec<f32> = values.iter().map(|&value| value as f32).collect();
            write_singles(&samples, buffer);
        }
        Format::Q15 => {
            let samples: Vec<i16> = values.iter().map(|&value| q15_from_f64(value).0).collect();
            write_fixed(&samples, buffer);
        }
    }
    report
}

/// The samples of another divisor, which is worked out of the number of samples and the symmetry.
fn redivided(ticket: &Ticket, buffer: &mut [u8], divisor: fn(u64, u64) -> u64) -> Report {
    let Window { form, symmetry, .. } = window(ticket);
    let divisor = divisor(right(ticket, &mut []).count, symmetry) as f64;
    revalued(ticket, buffer, |n| {
        if divisor == 0.0 {
            1.0
        } else {
            value(form, n, divisor)
        }
    })
}

/// The samples of another form.
fn reformed(ticket: &Ticket, buffer: &mut [u8], value: fn(f64, f64) -> f64) -> Report {
    let count = right(ticket, &mut []).count;
    let divisor = count.saturating_sub(window(ticket).symmetry) as f64;
    revalued(ticket, buffer, |n| {
        if divisor == 0.0 {
            1.0
        } else {
            value(n, divisor)
        }
    })
}

fn periodic_as_symmetric(ticket: &Ticket, buffer: &mut [u8]) -> Report {
    redivided(ticket, buffer, |count, _| count.saturating_sub(1))
}

fn symmetric_as_periodic(ticket: &Ticket, buffer: &mut [u8]) -> Report {
    redivided(ticket, buffer, |count, _| count)
}

fn longer_by_one(ticket: &Ticket, buffer: &mut [u8]) -> Report {
    redivided(ticket, buffer, |count, symmetry| count + 1 - symmetry)
}

/// The only sample of a periodic window as 1.
fn one_as_1(ticket: &Ticket, buffer: &mut [u8]) -> Report {
    redivided(ticket, buffer, |count, symmetry| {
        if count == 1 {
            0
        } else {
            count - symmetry.min(count)
        }
    })
}

/// An unknown symmetry as the symmetric one, or as the code's lower bits.
fn symmetries_taken(ticket: &Ticket, buffer: &mut [u8], symmetry: fn(u64) -> u64) -> Report {
    let window = window(ticket);
    let symmetry = symmetry(window.symmetry);
    let bytes = ticket.bytes();
    of(
        Ticket::Window {
            window: Window { symmetry, ..window },
            bytes,
        },
        buffer,
    )
}

fn length_first(ticket: &Ticket, buffer: &mut [u8]) -> Report {
    let (bytes, width) = (ticket.bytes(), window(ticket).format.width());
    let whole = bytes - bytes % width;
    let other = (whole != bytes).then(|| Report::length(whole, bytes));
    swapped(ticket, buffer, 7, other)
}

fn length_in_samples(ticket: &Ticket, buffer: &mut [u8]) -> Report {
    let width = window(ticket).format.width();
    changed(ticket, buffer, (8, 2), |report| {
        Report::length(report.expected / width, report.given / width)
    })
}

fn rest_left_out(ticket: &Ticket, buffer: &mut [u8]) -> Report {
    let window = window(ticket);
    let width = window.format.width();
    let bytes = ticket.bytes() / width * width;
    of(Ticket::Window { window, bytes }, buffer)
}

fn empty_refused(ticket: &Ticket, buffer: &mut [u8]) -> Report {
    let empty = ticket.bytes() == 0;
    swapped(ticket, buffer, 0, empty.then(|| Report::plain(6)))
}

fn last_left_out(ticket: &Ticket, buffer: &mut [u8]) -> Report {
    reshaped_fixed(ticket, buffer, |samples| {
        samples.pop();
    });
    reshaped_singles(ticket, buffer, |samples| {
        samples.pop();
    })
}

/// A count of bytes.
fn bytes_counted(ticket: &Ticket, buffer: &mut [u8]) -> Report {
    let report = right(ticket, buffer);
    let count = report.count * window(ticket).format.width();
    Report { count, ..report }
}

/// The samples as f32s or Q15 numbers of the values, rounded in another way.
fn rerounded_singles(ticket: &Ticket, buffer: &mut [u8], round: fn(f64) -> f32) -> Report {
    let Window { form, symmetry, .. } = window(ticket);
    reshaped_singles(ticket, buffer, |samples| {
        let divisor = (samples.len() as u64).saturating_sub(symmetry);
        for (n, sample) in samples.iter_mut().enumerate().filter(|_| divisor > 0) {
            *sample = round(value(form, n as f64, divisor as f64));
        }
    })
}

fn rerounded_fixed(ticket: &Ticket, buffer: &mut [u8], round: fn(f64) -> i16) -> Report {
    let Window { form, symmetry, .. } = window(ticket);
    reshaped_fixed(ticket, buffer, |samples| {
        let divisor = (samples.len() as u64).saturating_sub(symmetry);
        for (n, sample) in samples.iter_mut().enumerate().filter(|_| divisor > 0) {
            *sample = round(value(form, n as f64, divisor as f64));
        }
    })
}

/// 1 as -1, the upper bits being lost in place of saturation.
fn wrapped(ticket: &Ticket, buffer: &mut [u8]) -> Report {
    rerounded_fixed(ticket, buffer, |value| {
        (32768.0 * value + 0.5).floor() as i64 as i16
    })
}

fn truncated(value: f64) -> f32 {
    let near = value as f32;
    if f64::from(near) > value {
        near.next_down()
    } else {
        near
    }
}

fn beta(ticket: &Ticket) -> f64 {
    window(ticket).beta().expect("a Kaiser window")
}

fn beta_refused(ticket: &Ticket) -> Option<Report> {
    let beta = beta(ticket);
    (!(beta.is_finite() && beta >= 0.0)).then(|| Report::plain(4))
}

fn empty_accepted(ticket: &Ticket, buffer: &mut [u8]) -> Report {
    let taken = ticket.bytes() == 0;
    swapped(ticket, buffer, 4, taken.then(Report::default))
}

fn beta_first(ticket: &Ticket, buffer: &mut [u8]) -> Report {
    swapped(ticket, buffer, 8, beta_refused(ticket))
}

/// The Rust's own samples, NaN and 0, in place of 16 where the ticket is as said.
fn handed_out(ticket: &Ticket, buffer: &mut [u8], said: bool) -> Report {
    let report = right(ticket, buffer);
    if report.number != 16 || !said {
        return report;
    }
    let Answer {
        report,
        fixed,
        singles,
        ..
    } = unjudged(&window(ticket), ticket.bytes());
    write_fixed(&fixed, buffer);
    write_singles(&singles, buffer);
    report
}

fn not_refused(ticket: &Ticket, buffer: &mut [u8]) -> Report {
    handed_out(ticket, buffer, true)
}

fn counted_alone(ticket: &Ticket, buffer: &mut [u8]) -> Report {
    handed_out(ticket, buffer, series(beta(ticket)).terms < 500)
}

/// One periodic sample taken as one that takes no series.
fn one_taken(ticket: &Ticket, buffer: &mut [u8]) -> Report {
    let one = ticket.bytes() == window(ticket).format.width();
    handed_out(ticket, buffer, one)
}

fn sum_refused(ticket: &Ticket, buffer: &mut [u8]) -> Report {
    changed(ticket, buffer, (16, 0), |_| Report::plain(10))
}

/// Samples of 0 in place of 16.
fn zeros(ticket: &Ticket, buffer: &mut [u8]) -> Report {
    let count = ticket.bytes() / window(ticket).format.width();
    let report = cleared(ticket, buffer, 16);
    if report.number == 16 {
        Report::accepted(count, 0.0)
    } else {
        report
    }
}

/// An empty buffer refused with 16 too.
fn empty_unsettled(ticket: &Ticket, buffer: &mut [u8]) -> Report {
    let other = series_refused(beta(ticket)).filter(|_| ticket.bytes() == 0);
    swapped(ticket, buffer, 0, other)
}

/// One symmetric sample refused with 16 too.
fn one_unsettled(ticket: &Ticket, buffer: &mut [u8]) -> Report {
    let Window {
        format, symmetry, ..
    } = window(ticket);
    let one = ticket.bytes() == format.width() && symmetry == 1;
    swapped(
        ticket,
        buffer,
        0,
        series_refused(beta(ticket)).filter(|_| one),
    )
}

/// Every beta above 713 refused, though some of them settle.
fn above_refused(ticket: &Ticket, buffer: &mut [u8]) -> Report {
    let Window {
        format, symmetry, ..
    } = window(ticket);
    let divisor = divisor(symmetry, ticket.bytes() / format.width());
    let above = divisor > 0 && beta(ticket) > 713.0;
    swapped(ticket, buffer, 0, above.then(|| Report::plain(16)))
}

/// The series tested before what is refused with that number.
fn series_before(ticket: &Ticket, buffer: &mut [u8], number: u32) -> Report {
    swapped(ticket, buffer, number, series_refused(beta(ticket)))
}

/// The first sample written before the series is refused.
fn written_before(ticket: &Ticket, buffer: &mut [u8]) -> Report {
    let width = window(ticket).format.width() as usize;
    let report = right(ticket, buffer);
    if report.number == 16 {
        buffer[..width].fill(0);
    }
    report
}

fn beta_range(ticket: &Ticket, buffer: &mut [u8]) -> Report {
    changed(ticket, buffer, (4, 0), |_| {
        Report::range(4, 0.0, f64::INFINITY, beta(ticket))
    })
}

fn negative_taken(ticket: &Ticket, buffer: &mut [u8]) -> Report {
    let taken = beta(ticket) < 0.0 && beta(ticket).is_finite();
    let count = ticket.bytes() / window(ticket).format.width();
    swapped(
        ticket,
        buffer,
        4,
        taken.then(|| Report::accepted(count, 0.0)),
    )
}

fn negative_zero_refused(ticket: &Ticket, buffer: &mut [u8]) -> Report {
    let refused = beta(ticket).is_sign_negative();
    swapped(ticket, buffer, 0, refused.then(|| Report::plain(4)))
}

/// A beta held to 713, below which no series is infinite.
fn beta_held(ticket: &Ticket, buffer: &mut [u8]) -> Report {
    let held = beta(ticket).min(713.0);
    let beta = if beta(ticket).is_finite() {
        held
    } else {
        beta(ticket)
    };
    let (window, bytes) = (window(ticket), ticket.bytes());
    let form = Form::Kaiser { beta };
    of(
        Ticket::Window {
            window: Window { form, ..window },
            bytes,
        },
        buffer,
    )
}

pub const FAULTS: &[Fault] = faults![
    HannF32, "a periodic window with the symmetric divisor", periodic_as_symmetric;
    HannF32, "a symmetric window with the periodic divisor", symmetric_as_periodic;
    HannF32, "a divisor one too large", longer_by_one;
    HannF32, "one periodic sample as 1", one_as_1;
    HannF32, "any symmetry taken", |ticket, buffer| {
        symmetries_taken(ticket, buffer, |symmetry| symmetry.min(1))
    };
    HannF32, "the lower half of the symmetry", |ticket, buffer| {
        symmetries_taken(ticket, buffer, |symmetry| symmetry % (1 << 32))
    };
    HannF32, "the symmetries the other way round", |ticket, buffer| {
        symmetries_taken(ticket, buffer, |symmetry| symmetry ^ 1)
    };
    HannF32, "the length tested before the symmetry", length_first;
    HannF32, "the length in samples", length_in_samples;
    HannF32, "a rest of the buffer left out", rest_left_out;
    HannF32, "an empty buffer refused", empty_refused;
    HannF32, "the samples truncated", |ticket, buffer| {
        rerounded_singles(ticket, buffer, truncated)
    };
    HannF32, "worked out in single precision", |ticket, buffer| {
        reformed(ticket, buffer, |n, d| {
            f64::from(0.5 - 0.5 * (2.0 * PI * n / d).cos() as f32)
        })
    };
    HannF32, "Hamming's window", |ticket, buffer| {
        reformed(ticket, buffer, |n, d| 0.54 - 0.46 * libm::cos(2.0 * PI * n / d))
    };
    HannF32, "the last sample left out", last_left_out;
    HannF32, "the bytes counted", bytes_counted;
    HannF32, "a buffer cleared before a length is refused", |ticket, buffer| {
        cleared(ticket, buffer, 8)
    };
    HannQ15, "a periodic window with the symmetric divisor", periodic_as_symmetric;
    HannQ15, "a symmetric window with the periodic divisor", symmetric_as_periodic;
    HannQ15, "one periodic sample as 1", one_as_1;
    HannQ15, "1 as -32768", wrapped;
    HannQ15, "a scale of 32767", |ticket, buffer| {
        rerounded_fixed(ticket, buffer, |value| (32767.0 * value + 0.5).floor() as i16)
    };
    HannQ15, "the samples truncated", |ticket, buffer| {
        rerounded_fixed(ticket, buffer, |value| (32768.0 * value).floor() as i16)
    };
    HannQ15, "any symmetry taken", |ticket, buffer| {
        symmetries_taken(ticket, buffer, |symmetry| symmetry.min(1))
    };
    HannQ15, "the length tested before the symmetry", length_first;
    HannQ15, "a byte of the buffer left out", rest_left_out;
    HannQ15, "an empty buffer refused", empty_refused;
    HannQ15, "the bytes the other way round", |ticket, buffer| {
        reshaped_fixed(ticket, buffer, |samples| {
            for sample in samples.iter_mut() {
                *sample = sample.swap_bytes();
            }
        })
    };
    HannQ15, "a buffer cleared before a symmetry is refused", |ticket, buffer| {
        cleared(ticket, buffer, 7)
    };
    BlackmanHarrisF32, "a periodic window with the symmetric divisor", periodic_as_symmetric;
    BlackmanHarrisF32, "a divisor one too large", longer_by_one;
    BlackmanHarrisF32, "one periodic sample as 1", one_as_1;
    BlackmanHarrisF32, "Blackman's window", |ticket, buffer| {
        reformed(ticket, buffer, |n, d| {
            let x = 2.0 * PI * n / d;
            0.42 - 0.5 * libm::cos(x) + 0.08 * libm::cos(2.0 * x)
        })
    };
    BlackmanHarrisF32, "the last term with the other sign", |ticket, buffer| {
        reformed(ticket, buffer, |n, d| {
            value(Form::BlackmanHarris, n, d) + 2.0 * 0.01168 * libm::cos(6.0 * PI * n / d)
        })
    };
    BlackmanHarrisF32, "0 at the ends", |ticket, buffer| {
        reformed(ticket, buffer, |n, d| value(Form::BlackmanHarris, n, d) - 6e-5)
    };
    BlackmanHarrisF32, "the samples truncated", |ticket, buffer| {
        rerounded_singles(ticket, buffer, truncated)
    };
    BlackmanHarrisF32, "the length tested before the symmetry", length_first;
    BlackmanHarrisF32, "any symmetry taken", |ticket, buffer| {
        symmetries_taken(ticket, buffer, |symmetry| symmetry.min(1))
    };
    BlackmanHarrisF32, "the last sample left out", last_left_out;
    BlackmanHarrisF32, "nothing written", |ticket, _buffer| right(ticket, &mut []);
    BlackmanHarrisQ15, "a symmetric window with the periodic divisor", symmetric_as_periodic;
    BlackmanHarrisQ15, "one periodic sample as 1", one_as_1;
    BlackmanHarrisQ15, "1 as -32768", wrapped;
    BlackmanHarrisQ15, "a scale of 32767", |ticket, buffer| {
        rerounded_fixed(ticket, buffer, |value| (32767.0 * value + 0.5).floor() as i16)
    };
    BlackmanHarrisQ15, "the last term left out", |ticket, buffer| {
        reformed(ticket, buffer, |n, d| {
            value(Form::BlackmanHarris, n, d) + 0.01168 * libm::cos(6.0 * PI * n / d)
        })
    };
    BlackmanHarrisQ15, "the length in samples", length_in_samples;
    BlackmanHarrisQ15, "an empty buffer refused", empty_refused;
    BlackmanHarrisQ15, "the bytes counted", bytes_counted;
    KaiserF32, "a periodic window with the symmetric divisor", periodic_as_symmetric;
    KaiserF32, "a symmetric window with the periodic divisor", symmetric_as_periodic;
    KaiserF32, "one periodic sample as 1", one_as_1;
    KaiserF32, "an empty buffer accepted with any beta", empty_accepted;
    KaiserF32, "the beta tested before the length", beta_first;
    KaiserF32, "the length tested before the symmetry", length_first;
    KaiserF32, "the beta with its values", beta_range;
    KaiserF32, "a negative beta taken", negative_taken;
    KaiserF32, "a beta of -0 refused", negative_zero_refused;
    KaiserF32, "10 in place of 16", sum_refused;
    KaiserF32, "a beta held to 713", beta_held;
    KaiserF32, "NaN samples in place of 16", not_refused;
    KaiserF32, "samples of 0 in place of 16", zeros;
    KaiserF32, "settled by the count alone", counted_alone;
    KaiserF32, "settled up to 713 alone", above_refused;
    KaiserF32, "one periodic sample without a series", one_taken;
    KaiserF32, "one symmetric sample refused with 16", one_unsettled;
    KaiserF32, "an empty buffer refused with 16", empty_unsettled;
    KaiserF32, "the series tested before the symmetry", |ticket, buffer| {
        series_before(ticket, buffer, 7)
    };
    KaiserF32, "the series tested before the length", |ticket, buffer| {
        series_before(ticket, buffer, 8)
    };
    KaiserF32, "the series tested before the beta", |ticket, buffer| {
        series_before(ticket, buffer, 4)
    };
    KaiserF32, "a sample written before a series is refused", written_before;
    KaiserF32, "a buffer cleared before a series is refused", |ticket, buffer| {
        cleared(ticket, buffer, 16)
    };
    KaiserF32, "subnormal samples flushed", |ticket, buffer| {
        rerounded_singles(ticket, buffer, |value| {
            let near = value as f32;
            if near.is_subnormal() { 0.0 } else { near }
        })
    };
    KaiserF32, "the samples truncated", |ticket, buffer| {
        rerounded_singles(ticket, buffer, truncated)
    };
    KaiserF32, "not divided by the series at beta", |ticket, buffer| {
        let beta = beta(ticket);
        let count = designers::rust(ticket).report.count;
        let divisor = count.saturating_sub(window(ticket).symmetry) as f64;
        revalued(ticket, buffer, |n| {
            if divisor == 0.0 {
                1.0
            } else {
                value(Form::Kaiser { beta }, n, divisor) * bessel_i0(beta)
            }
        })
    };
    KaiserF32, "a buffer cleared before a beta is refused", |ticket, buffer| {
        cleared(ticket, buffer, 4)
    };
    KaiserQ15, "a periodic window with the symmetric divisor", periodic_as_symmetric;
    KaiserQ15, "one periodic sample as 1", one_as_1;
    KaiserQ15, "an empty buffer accepted with any beta", empty_accepted;
    KaiserQ15, "the beta tested before the length", beta_first;
    KaiserQ15, "a beta of -0 refused", negative_zero_refused;
    KaiserQ15, "1 as -32768", wrapped;
    KaiserQ15, "10 in place of 16", sum_refused;
    KaiserQ15, "11 in place of 16", |ticket, buffer| {
        changed(ticket, buffer, (16, 0), |_| Report::element(0, -1.0, 1.0, f64::NAN))
    };
    KaiserQ15, "a beta held to 713", beta_held;
    KaiserQ15, "samples of 0 in place of 16", not_refused;
    KaiserQ15, "settled by the count alone", counted_alone;
    KaiserQ15, "settled up to 713 alone", above_refused;
    KaiserQ15, "one periodic sample without a series", one_taken;
    KaiserQ15, "one symmetric sample refused with 16", one_unsettled;
    KaiserQ15, "an empty buffer refused with 16", empty_unsettled;
    KaiserQ15, "the series tested before the length", |ticket, buffer| {
        series_before(ticket, buffer, 8)
    };
    KaiserQ15, "the series tested before the beta", |ticket, buffer| {
        series_before(ticket, buffer, 4)
    };
    KaiserQ15, "a sample written before a series is refused", written_before;
    KaiserQ15, "a buffer cleared before a beta is refused", |ticket, buffer| {
        cleared(ticket, buffer, 4)
    };
];

//! Times reading a card of many tickets beside a plain parser in Rust, checking it at once, and writing its tickets
//! beside a plain writer.

use std::hint::black_box;
use std::time::Instant;

use peldozkar::{Bits, Card, Carried, Error, Reason, Ticket, TicketWindow, raw, read_ticket};

use crate::card::inputs::{record, slip_of};
use crate::card::{DESIGNERS, KAISER, LOWPASS, Slip};
use crate::run::bench::{median, times};
use crate::run::inputs;
use crate::run::random::Random;

const TICKETS: usize = 10_000;

/// The refusal of a number.
fn refused<T>(reason: Reason) -> Result<T, Error> {
    Err(Error {
        reason,
        carried: Carried::Nothing,
    })
}

/// A field of a body, which is long enough.
fn word(body: &[u8], place: usize) -> u64 {
    let mut bytes = [0; 8];
    bytes.copy_from_slice(&body[8 * place..8 * place + 8]);
    u64::from_le_bytes(bytes)
}

/// A parser as one would write it in Rust; not inlined, as that of a library isn't.
#[inline(never)]
fn plain(source: &[u8]) -> Result<(Ticket, &[u8]), Error> {
    let Some((&[a, b, c, d, low, high], rest)) = source.split_first_chunk::<6>() else {
        return refused(Reason::CutShort);
    };
    let kind = u16::from_le_bytes([low, high]);
    let fields = match kind {
        1 | 2 | 6 => 5,
        3 => 2,
        4 | 5 => 3,
        _ => return refused(Reason::Kind),
    };
    if u32::from_le_bytes([a, b, c, d]) as usize != 2 + 8 * fields {
        return refused(Reason::RecordLength);
    }
    let Some((body, unread)) = rest.split_at_checked(8 * fields) else {
        return refused(Reason::CutShort);
    };
    let count = |place| word(body, place);
    let float = |place| Bits(word(body, place));
    let ticket = match kind {
        1 => Ticket::Lowpass {
            cutoff: float(0),
            rate: float(1),
            window: match count(2) {
                0 => TicketWindow::Hann,
                1 => TicketWindow::Hamming,
                2 => TicketWindow::Blackman,
                3 => TicketWindow::Kaiser(float(3)),
                _ => return refused(Reason::Code),
            },
            count: count(4),
        },
        2 => Ticket::Spec {
            cutoff: float(0),
            transition: float(1),
            attenuation: float(2),
            rate: float(3),
            max_taps: count(4),
        },
        3 => Ticket::Halfband {
            beta: float(0),
            count: count(1),
        },
        4 => Ticket::Gaussian {
            bt: float(0),
            samples: count(1),
            span: count(2),
        },
        5 => Ticket::Rrc {
            rolloff: float(0),
            samples: count(1),
            span: count(2),
        },
        _ => Ticket::Channelizer {
            channels: count(0),
            branch: count(1),
            passband: float(2),
            stopband: float(3),
            attenuation: float(4),
        },
    };
    Ok((ticket, unread))
}

/// A writer as one would write it in Rust; not inlined either.
#[inline(never)]
fn plain_write(ticket: &Ticket, out: &mut [u8]) -> Result<usize, Error> {
    let (kind, fields): (u16, &[u64]) = match *ticket {
        Ticket::Lowpass {
            cutoff,
            rate,
            window,
            count,
        } => {
            let (code, beta) = match window {
                TicketWindow::Hann => (0, 0),
                TicketWindow::Hamming => (1, 0),
                TicketWindow::Blackman => (2, 0),
                TicketWindow::Kaiser(beta) => (3, beta.0),
                _ => return refused(Reason::Code),
            };
            (1, &[cutoff.0, rate.0, code, beta, count])
        }
        Ticket::Spec {
            cutoff,
            transition,
            attenuation,
            rate,
            max_taps,
        } => (
            2,
            &[cutoff.0, transition.0, attenuation.0, rate.0, max_taps],
        ),
        Ticket::Halfband { beta, count } => (3, &[beta.0, count]),
        Ticket::Gaussian { bt, samples, span } => (4, &[bt.0, samples, span]),
        Ticket::Rrc {
            rolloff,
            samples,
            span,
        } => (5, &[rolloff.0, samples, span]),
        Ticket::Channelizer {
            channels,
            branch,
            passband,
            stopband,
            attenuation,
        } => (
            6,
            &[channels, branch, passband.0, stopband.0, attenuation.0],
        ),
        _ => return refused(Reason::Kind),
    };
    let (expected, given) = (6 + 8 * fields.len(), out.len());
    if given != expected {
        return Err(Error {
            reason: Reason::Length,
            carried: Carried::Length {
                expected: expected as u64,
                given: given as u64,
            },
        });
    }
    out[..4].copy_from_slice(&(expected as u32 - 4).to_le_bytes());
    out[4..6].copy_from_slice(&kind.to_le_bytes());
    for (bytes, field) in out[6..].chunks_exact_mut(8).zip(fields) {
        bytes.copy_from_slice(&field.to_le_bytes());
    }
    Ok(expected)
}

/// A card of tickets of all kinds, in no order.
fn card() -> Vec<u8> {
    let mut random = Random::new(7);
    let mut bytes = Vec::new();
    for _ in 0..TICKETS {
        let kind = DESIGNERS[random.below(6) as usize];
        let (mut slip, _) = slip_of(&inputs::draw(kind, &mut random));
        if slip.kind == LOWPASS {
            slip.fields[2] %= KAISER + 1;
        }
        bytes.extend(record(&slip));
    }
    bytes
}

/// The microseconds of a pass, which must go through all tickets.
fn timed(pass: impl FnOnce() -> usize) -> f64 {
    let start = Instant::now();
    let tickets = pass();
    let spent = start.elapsed().as_nanos() as f64 / 1000.0;
    assert_eq!(tickets, TICKETS, "not every ticket of the card");
    spent
}

/// Reads a card ticket by ticket with a function that hands back the ticket and the unread part.
fn through(
    card: &[u8],
    read: impl for<'a> Fn(&'a [u8]) -> Result<(Ticket, &'a [u8]), Error>,
) -> usize {
    let (mut rest, mut tickets) = (black_box(card), 0);
    while !rest.is_empty() {
        match read(rest) {
            Ok((ticket, unread)) => {
                black_box(&ticket);
                rest = unread;
                tickets += 1;
            }
            Err(_) => break,
        }
    }
    tickets
}

/// The same with the export itself, whose answer is C's.
fn through_export(card: &[u8]) -> usize {
    let (mut rest, mut tickets) = (black_box(card), 0);
    while !rest.is_empty() {
        let reading = raw::pel_read_ticket(rest);
        if reading.report.number != raw::ACCEPTED {
            break;
        }
        black_box(&reading.ticket);
        rest = &rest[reading.report.count as usize..];
        tickets += 1;
    }
    tickets
}

/// Writes tickets one behind the other, each in as many bytes as its record takes.
fn writing<T>(
    tickets: &[(T, usize)],
    card: &mut [u8],
    write: impl Fn(&T, &mut [u8]) -> Option<usize>,
) -> usize {
    let (mut place, mut written) = (0, 0);
    for (ticket, length) in black_box(tickets) {
        match write(ticket, &mut card[place..place + length]) {
            Some(bytes) => place += bytes,
            None => break,
        }
        written += 1;
    }
    black_box(card);
    written
}

/// What the export answers.
fn exported(slip: &Slip, out: &mut [u8]) -> Option<usize> {
    let report = raw::pel_write_ticket(*slip, out);
    (report.number == raw::ACCEPTED).then_some(report.count as usize)
}

/// Reads the tickets of a card, and prints the medians of writing them with the three, which take turns in the rounds,
/// and the ratios over the plain writer.
fn run_writing(card: &[u8]) {
    let tickets: Vec<(Ticket, usize)> = Card::new(card)
        .map(|ticket| ticket.expect("the card is whole"))
        .map(|ticket| (ticket, ticket.record_length()))
        .collect();
    let slips: Vec<(Slip, usize)> = tickets
        .iter()
        .map(|(ticket, length)| (ticket.record(), *length))
        .collect();
    let wrap = |ticket: &Ticket, out: &mut [u8]| ticket.write(out).ok();
    let plain = |ticket: &Ticket, out: &mut [u8]| plain_write(ticket, out).ok();
    // All three write the same card, which reads as the first one.
    let mut cards = [0, 1, 2].map(|byte| vec![byte; card.len()]);
    let [by_export, wrapped, plainly] = &mut cards;
    writing(&slips, by_export, exported);
    writing(&tickets, wrapped, wrap);
    writing(&tickets, plainly, plain);
    assert_eq!(by_export, plainly, "the plain writer writes otherwise");
    assert_eq!(wrapped, plainly, "the crate writes otherwise");
    let again = Card::new(plainly).map(|ticket| ticket.expect("the card is whole"));
    assert!(again.eq(tickets.iter().map(|(ticket, _)| *ticket)));
    let [export, wrapped, plain] = times([
        &mut || timed(|| writing(&slips, by_export, exported)),
        &mut || timed(|| writing(&tickets, wrapped, wrap)),
        &mut || timed(|| writing(&tickets, plainly, plain)),
    ])
    .map(|mut times| median(&mut times));
    let speed = |time: f64| card.len() as f64 / time;
    println!(
        "card, {TICKETS} tickets written: pel_write_ticket {export:.1} us ({:.0} MB/s)  \
         Ticket::write of the crate {wrapped:.1} us ({:.0} MB/s)  plain Rust {plain:.1} us ({:.0} MB/s)",
        speed(export),
        speed(wrapped),
        speed(plain),
    );
    println!(
        "  over the plain writer, by medians: pel_write_ticket {:.2}, Ticket::write of the crate {:.2}",
        export / plain,
        wrapped / plain,
    );
}

/// Prints the medians of the four, which take turns in the rounds, with the megabytes of a second, and the ratios of
/// reading over the plain parser; then the same of writing.
pub fn run() {
    let card = card();
    // Both read the same.
    let mut rest = &card[..];
    while !rest.is_empty() {
        let read = plain(rest);
        assert_eq!(read, read_ticket(rest), "the plain parser reads otherwise");
        rest = read.expect("the card is whole").1;
    }
    let [export, wrapped, plain, check] = times([
        &mut || timed(|| through_export(&card)),
        &mut || timed(|| through(&card, read_ticket)),
        &mut || timed(|| through(&card, plain)),
        &mut || timed(|| raw::pel_check_card(black_box(&card)).tickets as usize),
    ])
    .map(|mut times| median(&mut times));
    let speed = |time: f64| card.len() as f64 / time;
    println!(
        "card, {TICKETS} tickets in {} bytes: pel_read_ticket {export:.1} us ({:.0} MB/s)  \
         read_ticket of the crate {wrapped:.1} us ({:.0} MB/s)  plain Rust {plain:.1} us ({:.0} MB/s)  \
         pel_check_card {check:.1} us ({:.0} MB/s)",
        card.len(),
        speed(export),
        speed(wrapped),
        speed(plain),
        speed(check),
    );
    println!(
        "  over the plain parser, by medians: pel_read_ticket {:.2}, read_ticket of the crate {:.2}, \
         pel_check_card {:.2}",
        export / plain,
        wrapped / plain,
        check / plain,
    );
    run_writing(&card);
}

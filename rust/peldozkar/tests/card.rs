//! Tickets on a card: records of each kind, whole and broken, and written; and tickets designed beside the functions of
//! their kinds.

use std::error::Error as _;

use peldozkar::{
    Bits, Broken, Card, Carried, Design, Error, Figures, Reason, Spec, Ticket, TicketWindow,
    Window, channelizer_lowpass, channelizer_prototype, check_card, gaussian, gaussian_new,
    halfband, halfband_new, lowpass, lowpass_new, raw, read_ticket, rrc, rrc_new,
};

/// A NaN whose payload no arithmetic gives.
const NAN: u64 = 0xFFF1_2345_6789_ABCD;

fn bits(x: f64) -> u64 {
    x.to_bits()
}

/// A record by the card's format: the length of what follows, the kind, the fields.
fn record(kind: u16, fields: &[u64]) -> Vec<u8> {
    let mut bytes = Vec::new();
    bytes.extend((2 + 8 * fields.len() as u32).to_le_bytes());
    bytes.extend(kind.to_le_bytes());
    for field in fields {
        bytes.extend(field.to_le_bytes());
    }
    bytes
}

/// A record of each kind with its ticket, every field another number.
fn all() -> Vec<(Vec<u8>, Ticket)> {
    let lowpass = |code, beta, window| {
        (
            record(1, &[bits(1000.0), bits(8000.0), code, beta, 31]),
            Ticket::Lowpass {
                cutoff: 1000.0.into(),
                rate: 8000.0.into(),
                window,
                count: 31,
            },
        )
    };
    vec![
        lowpass(0, bits(1.0), TicketWindow::Hann),
        lowpass(1, NAN, TicketWindow::Hamming),
        lowpass(2, u64::MAX, TicketWindow::Blackman),
        lowpass(3, bits(8.0), TicketWindow::Kaiser(8.0.into())),
        (
            record(
                2,
                &[bits(1000.0), bits(800.0), bits(60.0), bits(8000.0), 99],
            ),
            Ticket::Spec {
                cutoff: 1000.0.into(),
                transition: 800.0.into(),
                attenuation: 60.0.into(),
                rate: 8000.0.into(),
                max_taps: 99,
            },
        ),
        (
            record(3, &[bits(8.0), 31]),
            Ticket::Halfband {
                beta: 8.0.into(),
                count: 31,
            },
        ),
        (
            record(4, &[bits(0.5), 8, 4]),
            Ticket::Gaussian {
                bt: 0.5.into(),
                samples: 8,
                span: 4,
            },
        ),
        (
            record(5, &[bits(0.25), 8, 6]),
            Ticket::Rrc {
                rolloff: 0.25.into(),
                samples: 8,
                span: 6,
            },
        ),
        (
            record(6, &[16, 8, bits(0.5), bits(1.0), bits(60.0)]),
            Ticket::Channelizer {
                channels: 16,
                branch: 8,
                passband: 0.5.into(),
                stopband: 1.0.into(),
                attenuation: 60.0.into(),
            },
        ),
    ]
}

/// A record with zeros for a beta that doesn't count.
fn cleared(record: &[u8], ticket: &Ticket) -> Vec<u8> {
    let mut record = record.to_vec();
    if matches!(
        ticket,
        Ticket::Lowpass {
            window: TicketWindow::Hann | TicketWindow::Hamming | TicketWindow::Blackman,
            ..
        }
    ) {
        record[30..38].fill(0);
    }
    record
}

#[track_caller]
fn refused<T: std::fmt::Debug>(answer: Result<T, Error>, reason: Reason) {
    assert_eq!(
        answer.expect_err("it must be refused"),
        Error {
            reason,
            carried: Carried::Nothing
        }
    );
}

#[test]
fn each_kind_is_read() {
    for (record, ticket) in all() {
        // What follows doesn't matter, and is the unread part of these very bytes.
        for tail in [&[][..], &[0], &[0xFF; 50], &record] {
            let bytes = [&record, tail].concat();
            let (read, unread) = read_ticket(&bytes).unwrap();
            assert_eq!(read, ticket);
            assert!(std::ptr::eq(unread, &bytes[record.len()..]));
        }
        // It is the record again, but for a beta that doesn't count.
        let raw::Ticket { kind, fields } = ticket.record();
        let count = (record.len() - 6) / 8;
        let same = cleared(&record, &ticket);
        assert_eq!(self::record(kind as u16, &fields[..count]), same);
        assert!(fields[count..].iter().all(|field| *field == 0));
    }
}

#[test]
fn broken_records() {
    for (record, _) in all() {
        for end in 0..record.len() {
            refused(read_ticket(&record[..end]), Reason::CutShort);
        }
        for (kind, reason) in [(0, Reason::Kind), (7, Reason::Kind), (0x0103, Reason::Kind)] {
            let mut bytes = record.clone();
            bytes[4..6].copy_from_slice(&u16::to_le_bytes(kind));
            // 13 before 14, and before a body that is short.
            refused(read_ticket(&bytes), reason);
            bytes[0] ^= 1;
            refused(read_ticket(&bytes), reason);
            refused(read_ticket(&bytes[..6]), reason);
            refused(read_ticket(&bytes[..5]), Reason::CutShort);
        }
        for place in 0..4 {
            let mut bytes = record.clone();
            bytes[place] ^= 0x80;
            refused(read_ticket(&bytes), Reason::RecordLength);
            refused(read_ticket(&bytes[..6]), Reason::RecordLength);
        }
    }
    // A window above 3 is tested last.
    for window in [4, 1 << 32, u64::MAX] {
        let bytes = record(1, &[NAN, NAN, window, NAN, u64::MAX]);
        refused(read_ticket(&bytes), Reason::Code);
        refused(read_ticket(&bytes[..45]), Reason::CutShort);
    }
}

/// Floats are kept as bits, and no number but the window is judged.
#[test]
fn bits_are_kept() {
    let bytes = record(1, &[NAN, u64::MAX, 3, 1, u64::MAX]);
    let (ticket, _) = read_ticket(&bytes).unwrap();
    assert_eq!(
        ticket,
        Ticket::Lowpass {
            cutoff: Bits(NAN),
            rate: Bits(u64::MAX),
            window: TicketWindow::Kaiser(Bits(1)),
            count: u64::MAX,
        }
    );
    assert_eq!(ticket.record().fields, [NAN, u64::MAX, 3, 1, u64::MAX]);
    assert!(Bits(NAN).value().is_nan());
    assert_eq!(Bits::from(-0.0), Bits(1 << 63));
    assert_eq!(format!("{:?}", Bits::from(8.0)), "Bits(8.0)");
    assert_eq!(format!("{:?}", Bits(NAN)), "Bits(0xFFF123456789ABCD)");
}

#[test]
fn each_kind_is_written() {
    let lengths = [46, 46, 46, 46, 46, 22, 30, 30, 46];
    for ((record, ticket), length) in all().into_iter().zip(lengths) {
        assert_eq!((record.len(), ticket.record_length()), (length, length));
        assert!(length <= Ticket::LONGEST_RECORD);
        // Between other bytes of a card, which stay and don't matter for what is read; at every alignment.
        for place in 8..16 {
            let mut card = vec![0xA5; place + length + 10];
            let mut want = card.clone();
            want[place..place + length].copy_from_slice(&cleared(&record, &ticket));
            assert_eq!(ticket.write(&mut card[place..place + length]), Ok(length));
            assert_eq!(card, want);
            assert_eq!(read_ticket(&card[place..]), Ok((ticket, &[0xA5; 10][..])));
        }
    }
}

/// Only the record's own length is taken, and every other buffer is as it came.
#[test]
fn lengths_of_records() {
    for (_, ticket) in all() {
        let expected = ticket.record_length();
        for given in (0..=60).chain([255, 256 + expected, 65_536 + expected]) {
            let mut out = vec![0xA5; given];
            if given == expected {
                assert_eq!(ticket.write(&mut out), Ok(expected));
                continue;
            }
            assert_eq!(
                ticket.write(&mut out),
                Err(Error {
                    reason: Reason::Length,
                    carried: Carried::Length {
                        expected: expected as u64,
                        given: given as u64
                    }
                })
            );
            assert!(out.iter().all(|byte| *byte == 0xA5));
        }
    }
}

/// Every pattern of a float and every count is written as it is, and reads back.
#[test]
fn bits_are_written() {
    for word in [
        0x7FF0_0000_0000_0001,
        NAN,
        u64::MAX,
        bits(f64::INFINITY),
        1 << 63,
        1,
    ] {
        let float = Bits(word);
        let tickets = [
            Ticket::Lowpass {
                cutoff: float,
                rate: float,
                window: TicketWindow::Kaiser(float),
                count: word,
            },
            Ticket::Spec {
                cutoff: float,
                transition: float,
                attenuation: float,
                rate: float,
                max_taps: word,
            },
            Ticket::Halfband {
                beta: float,
                count: word,
            },
            Ticket::Gaussian {
                bt: float,
                samples: word,
                span: word,
            },
            Ticket::Rrc {
                rolloff: float,
                samples: word,
                span: word,
            },
            Ticket::Channelizer {
                channels: word,
                branch: word,
                passband: float,
                stopband: float,
                attenuation: float,
            },
        ];
        for (kind, ticket) in (1..).zip(tickets) {
            let mut out = vec![0; ticket.record_length()];
            assert_eq!(ticket.write(&mut out), Ok(out.len()));
            let mut fields = vec![word; (out.len() - 6) / 8];
            if kind == 1 {
                fields[2] = raw::KAISER;
            }
            assert_eq!(out, record(kind, &fields));
            assert_eq!(read_ticket(&out), Ok((ticket, &[][..])));
        }
    }
}

/// Tickets as C has them: what the crate's own can't be, and rubbish in what a kind hasn't.
#[test]
fn raw_tickets_are_written() {
    let plain = |number| raw::Report {
        number,
        ..raw::Report::default()
    };
    for given in [0, 21, 22, 30, 46, 47] {
        let mut out = vec![0xA5; given];
        // 13 before 7 and 8, and 7 before 8.
        for kind in [0, 7, 256 + 3, (1 << 32) + 1, u64::MAX] {
            let fields = [NAN, NAN, 4, NAN, NAN];
            let report = raw::pel_write_ticket(raw::Ticket { kind, fields }, &mut out);
            assert_eq!(report, plain(raw::UNKNOWN_KIND));
        }
        for window in [4, 1 << 32, u64::MAX] {
            let fields = [NAN, NAN, window, NAN, NAN];
            let report = raw::pel_write_ticket(raw::Ticket { kind: 1, fields }, &mut out);
            assert_eq!(report, plain(raw::BAD_CODE));
        }
        assert!(out.iter().all(|byte| *byte == 0xA5));
    }
    for (bytes, ticket) in all() {
        let raw::Ticket { kind, mut fields } = ticket.record();
        fields[(bytes.len() - 6) / 8..].fill(NAN);
        if kind == raw::TICKET_LOWPASS && fields[2] != raw::KAISER {
            fields[3] = NAN;
        }
        let mut out = vec![0; bytes.len()];
        let report = raw::pel_write_ticket(raw::Ticket { kind, fields }, &mut out[1..]);
        let count = bytes.len() as u64;
        assert_eq!(
            report,
            raw::Report {
                carries: raw::LENGTH,
                expected: count,
                given: count - 1,
                ..plain(raw::BAD_LENGTH)
            }
        );
        let report = raw::pel_write_ticket(raw::Ticket { kind, fields }, &mut out);
        assert_eq!(
            report,
            raw::Report {
                count,
                ..plain(raw::ACCEPTED)
            }
        );
        assert_eq!(out, cleared(&bytes, &ticket));
    }
}

/// Designs a ticket and, by another function, what it must be: the same answer and the same bits of a buffer.
#[track_caller]
fn same(
    ticket: Ticket,
    taps: usize,
    function: impl FnOnce(&mut [f64]) -> Result<Figures, Error>,
    judged: Result<Figures, Error>,
) {
    let mut ours = vec![f64::from_bits(NAN); taps];
    let mut theirs = ours.clone();
    let answer = ticket.design(&mut ours);
    assert_eq!(answer, function(&mut theirs));
    assert_eq!(ticket.judge(), judged);
    let all = |taps: &[f64]| taps.iter().map(|tap| tap.to_bits()).collect::<Vec<_>>();
    assert_eq!(all(&ours), all(&theirs));
    if answer.is_err() {
        assert!(ours.iter().all(|tap| tap.to_bits() == NAN));
    }
}

#[test]
fn tickets_are_designed_as_their_kinds() {
    let divided = |answer: Result<Design, Error>| answer.map(Figures::Divided);
    for (rate, beta, count) in [(8000.0, 8.0, 31), (-8000.0, 8.0, 31), (8000.0, 1e4, 1)] {
        let windows = [
            (TicketWindow::Hann, Window::Hann),
            (TicketWindow::Hamming, Window::Hamming),
            (TicketWindow::Blackman, Window::Blackman),
            (TicketWindow::Kaiser(beta.into()), Window::Kaiser(beta)),
        ];
        for (coded, window) in windows {
            same(
                Ticket::Lowpass {
                    cutoff: 1000.0.into(),
                    rate: rate.into(),
                    window: coded,
                    count,
                },
                count as usize,
                |out| divided(lowpass(1000.0, rate, window, out)),
                divided(lowpass_new(1000.0, rate, window, count)),
            );
        }
    }
    let spec = Spec {
        cutoff: 1000.0,
        transition: 800.0,
        attenuation: 60.0,
    };
    let taps = spec.num_taps(8000.0, 99).unwrap() as usize;
    for (max_taps, taps) in [(99, taps), (99, taps + 1), (3, taps)] {
        same(
            Ticket::Spec {
                cutoff: spec.cutoff.into(),
                transition: spec.transition.into(),
                attenuation: spec.attenuation.into(),
                rate: 8000.0.into(),
                max_taps,
            },
            taps,
            |out| divided(spec.design(8000.0, max_taps, out)),
            divided(spec.lowpass(8000.0, max_taps)),
        );
    }
    for (beta, count) in [(8.0, 31), (8.0, 33), (-8.0, 31), (1e3, 31)] {
        same(
            Ticket::Halfband {
                beta: f64::into(beta),
                count,
            },
            count as usize,
            |out| divided(halfband(beta, out)),
            divided(halfband_new(beta, count)),
        );
    }
    for (samples, span, taps) in [(8, 4, 33), (8, 4, 32), (8, 9, 73), (1, 4, 5)] {
        same(
            Ticket::Gaussian {
                bt: 0.5.into(),
                samples,
                span,
            },
            taps,
            |out| divided(gaussian(0.5, samples, span, out)),
            divided(gaussian_new(0.5, samples, span)),
        );
        same(
            Ticket::Rrc {
                rolloff: 0.25.into(),
                samples,
                span,
            },
            taps,
            |out| rrc(0.25, samples, span, out).map(Figures::Scaled),
            rrc_new(0.25, samples, span).map(Figures::Scaled),
        );
    }
    for (channels, branch, taps) in [(16, 8, 128), (16, 8, 127), (16, 33, 528), (8, 16, 128)] {
        same(
            Ticket::Channelizer {
                channels,
                branch,
                passband: 0.5.into(),
                stopband: 1.25.into(),
                attenuation: 60.0.into(),
            },
            taps,
            |out| {
                divided(channelizer_prototype(
                    channels, branch, 0.5, 1.25, 60.0, out,
                ))
            },
            divided(channelizer_lowpass(channels, branch, 0.5, 1.25, 60.0)),
        );
    }
}

/// A count that isn't the buffer's comes before every number of the ticket.
#[test]
fn a_count_before_the_numbers() {
    let tickets = |count| {
        [
            Ticket::Lowpass {
                cutoff: Bits(NAN),
                rate: Bits(NAN),
                window: TicketWindow::Kaiser(Bits(NAN)),
                count,
            },
            Ticket::Halfband {
                beta: Bits(NAN),
                count,
            },
        ]
    };
    for count in [0, 1, 30, 32, 1 << 24, u64::MAX] {
        for ticket in tickets(count) {
            let mut out = [7.0; 31];
            assert_eq!(
                ticket.design(&mut out),
                Err(Error {
                    reason: Reason::Length,
                    carried: Carried::Length {
                        expected: count,
                        given: 31
                    }
                })
            );
            assert_eq!(out, [7.0; 31]);
        }
    }
    let [lowpass, halfband] = tickets(31);
    refused(lowpass.design(&mut [7.0; 31]), Reason::Rate);
    refused(lowpass.judge(), Reason::Rate);
    refused(halfband.design(&mut [7.0; 31]), Reason::Attenuation);
    refused(halfband.judge(), Reason::Attenuation);
}

#[test]
fn cards() {
    let records = all();
    let bytes: Vec<u8> = records
        .iter()
        .flat_map(|(record, _)| record.clone())
        .collect();
    let tickets: Vec<Ticket> = records.iter().map(|(_, ticket)| *ticket).collect();
    assert_eq!(check_card(&bytes), Ok(tickets.len() as u64));
    let mut card = Card::new(&bytes);
    let mut place = 0;
    for (record, ticket) in &records {
        assert_eq!((card.place(), card.unread()), (place, &bytes[place..]));
        assert_eq!(card.next(), Some(Ok(*ticket)));
        place += record.len();
    }
    for _ in 0..3 {
        assert_eq!((card.next(), card.place()), (None, bytes.len()));
        assert!(card.unread().is_empty());
    }

    // Cut at each byte: the records before it, and where the rest begins.
    for end in 0..bytes.len() {
        let (mut whole, mut place) = (0, 0);
        while place + records[whole].0.len() <= end {
            place += records[whole].0.len();
            whole += 1;
        }
        let cut = &bytes[..end];
        let mut card = Card::new(cut);
        let read: Vec<Ticket> = card.by_ref().map_while(Result::ok).collect();
        assert_eq!(read, tickets[..whole]);
        assert_eq!((card.place(), card.unread()), (place, &cut[place..]));
        assert_eq!(card.next(), None);
        let broken = Broken {
            tickets: whole as u64,
            place,
            error: Error {
                reason: Reason::CutShort,
                carried: Carried::Nothing,
            },
        };
        let last = Card::new(cut).last();
        if place == end {
            assert_eq!(check_card(cut), Ok(whole as u64));
            assert_eq!(last, whole.checked_sub(1).map(|last| Ok(tickets[last])));
        } else {
            assert_eq!(check_card(cut), Err(broken));
            assert_eq!(last, Some(Err(broken)));
        }
    }
    assert_eq!(check_card(&[]), Ok(0));
    assert_eq!(Card::new(&[]).next(), None);
}

#[test]
fn in_words() {
    let mut bytes = record(3, &[bits(8.0), 31]);
    bytes.extend(record(9, &[1]));
    let broken = check_card(&bytes).unwrap_err();
    assert_eq!(
        broken.to_string(),
        "the record at byte 22, after 1: refused with 13: the kind of ticket is unknown"
    );
    assert_eq!(
        broken.source().unwrap().to_string(),
        "refused with 13: the kind of ticket is unknown"
    );
    let mut card = Card::new(&bytes);
    assert!(card.next().unwrap().is_ok());
    assert_eq!(card.next(), Some(Err(broken)));
    assert_eq!((card.next(), card.next()), (None, None));
}

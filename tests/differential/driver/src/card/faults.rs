//! Wrong readers, writers, judgements and designs that the cards must notice.
//!
//! Each gives the model's answers with one thing changed.

use crate::card::{
    Checked, Field, HALFBAND, KAISER, LOWPASS, Reading, Side, Slip, Written, asked, checked,
    count_refused, designed, fields_of, is_unknown_window, judged, parsed, written,
};
use crate::run::designers::{self, Answer};
use crate::run::faults::write;
use crate::run::report::Report;

/// A wrong side in the port's place.
pub struct Fault {
    pub what: &'static str,
    pub wrong: Side,
}

/// The right one.
pub const RIGHT: Side = Side {
    read: parsed,
    check: checked,
    write: recorded,
    judge: judged,
    design: right,
};

/// The model's design, what it writes written as the port writes it.
fn right(slip: &Slip, buffer: &mut [u8]) -> Report {
    let Answer { report, taps, .. } = designed(slip, buffer.len() as u64);
    write(&taps, buffer);
    report
}

/// The model's record, written.
fn recorded(slip: &Slip, buffer: &mut [u8]) -> Report {
    let Written { report, record } = written(slip, buffer.len() as u64);
    buffer[..record.len()].copy_from_slice(&record);
    report
}

/// The right answer, with what `change` makes of the buffer and the report where the ticket is written.
fn spoilt(slip: &Slip, buffer: &mut [u8], change: impl FnOnce(&mut [u8], &mut Report)) -> Report {
    let mut report = recorded(slip, buffer);
    if report.is_accepted() {
        change(buffer, &mut report);
    }
    report
}

/// The record of the ticket that `change` makes of one that is written.
fn written_of(slip: &Slip, buffer: &mut [u8], change: impl FnOnce(&mut Slip)) -> Report {
    let report = written(slip, buffer.len() as u64).report;
    if report.is_accepted() {
        let mut other = *slip;
        change(&mut other);
        let record = written(&other, buffer.len() as u64).record;
        buffer[..record.len()].copy_from_slice(&record);
    }
    report
}

/// The right answer, but where it is refusal `number`, that of `instead`.
fn in_place(
    slip: &Slip,
    buffer: &mut [u8],
    number: u32,
    instead: impl FnOnce(&Slip, &mut [u8], Report) -> Report,
) -> Report {
    match written(slip, buffer.len() as u64).report {
        report if report.number == number => instead(slip, buffer, report),
        _ => recorded(slip, buffer),
    }
}

/// How many bytes the record of a ticket takes, an unknown kind's as many as the longest.
fn own(slip: &Slip) -> u64 {
    fields_of(slip.kind).map_or(46, |fields| 6 + 8 * fields.len() as u64)
}

/// The refusal of a length that isn't the record's.
fn of_length(slip: &Slip, buffer: &[u8], otherwise: Report) -> Report {
    let bytes = buffer.len() as u64;
    if bytes == own(slip) {
        otherwise
    } else {
        Report::length(own(slip), bytes)
    }
}

/// The Rust's design of what the designer of the kind is asked, without the card's own refusals.
fn straight(slip: &Slip, buffer: &mut [u8]) -> Report {
    let Some(ticket) = asked(slip, buffer.len() as u64) else {
        return Report::plain(13);
    };
    let Answer { report, taps, .. } = designers::rust(&ticket);
    write(&taps, buffer);
    report
}

/// The right answer, but where it is refusal `number` and another applies too, that one.
fn swapped(bytes: &[u8], number: u32, other: bool, instead: u32) -> Reading {
    let reading = parsed(bytes);
    if other && reading.report.number == number {
        refused(instead)
    } else {
        reading
    }
}

fn refused(number: u32) -> Reading {
    Reading {
        slip: Slip::default(),
        report: Report::plain(number),
    }
}

/// The right answer with the ticket that `change` makes where there is one.
fn read(bytes: &[u8], change: impl FnOnce(&mut Slip)) -> Reading {
    let mut reading = parsed(bytes);
    if reading.report.is_accepted() {
        change(&mut reading.slip);
    }
    reading
}

/// What is read of a copy of the bytes that `change` has made.
fn copied(bytes: &[u8], change: impl FnOnce(&mut [u8])) -> Reading {
    let mut copy = bytes.to_vec();
    if copy.len() >= 6 {
        change(&mut copy);
    }
    parsed(&copy)
}

fn kind(bytes: &[u8]) -> Option<u64> {
    let kind = bytes.get(4..)?.first_chunk()?;
    Some(u64::from(u16::from_le_bytes(*kind)))
}

fn fields(bytes: &[u8]) -> Option<&'static [Field]> {
    kind(bytes).and_then(fields_of)
}

fn length(bytes: &[u8]) -> Option<u32> {
    bytes.first_chunk().map(|bytes| u32::from_le_bytes(*bytes))
}

/// The faults of a record, each as if it were tested first.
fn is_short(bytes: &[u8]) -> bool {
    fields(bytes).is_some_and(|fields| bytes.len() < 6 + 8 * fields.len())
}

fn is_long_for_all(bytes: &[u8]) -> bool {
    length(bytes).is_some_and(|length| length > 42)
}

fn has_bad_window(bytes: &[u8]) -> bool {
    let window = bytes.get(22..).and_then(|rest| rest.first_chunk());
    kind(bytes) == Some(LOWPASS)
        && window.is_some_and(|window| u64::from_le_bytes(*window) > KAISER)
}

/// The right answer to a card, changed where it is refused.
fn broken(bytes: &[u8], change: impl FnOnce(&mut Checked)) -> Checked {
    let mut card = checked(bytes);
    if !card.report.is_accepted() {
        change(&mut card);
    }
    card
}

/// The right answer, changed where the ticket's count isn't the buffer's.
fn miscounted(
    slip: &Slip,
    buffer: &mut [u8],
    change: impl FnOnce(&Slip, &mut [u8], Report) -> Report,
) -> Report {
    let counted = count_refused(slip, buffer.len() as u64).filter(|_| !is_unknown_window(slip));
    match counted {
        Some(report) => change(slip, buffer, report),
        None => right(slip, buffer),
    }
}

/// The right answer of another ticket.
fn of(slip: &Slip, buffer: &mut [u8], change: impl FnOnce(&mut Slip)) -> Report {
    let mut other = *slip;
    change(&mut other);
    right(&other, buffer)
}

fn in_bytes(buffer: &[u8]) -> Option<Report> {
    let bytes = buffer.len() as u64;
    (!bytes.is_multiple_of(8)).then(|| Report::length(bytes - bytes % 8, bytes))
}

macro_rules! faults {
    ($($what:literal, $part:ident: $wrong:expr;)*) => {
        &[$(Fault {
            what: $what,
            wrong: Side {
                $part: $wrong,
                ..RIGHT
            },
        }),*]
    };
}

pub const FAULTS: &[Fault] = faults![
    "six bytes taken for none", read: |bytes| {
        if bytes.len() == 6 { refused(12) } else { parsed(bytes) }
    };
    "14 before 13", read: |bytes| swapped(bytes, 13, is_long_for_all(bytes), 14);
    "12 before 13", read: |bytes| swapped(bytes, 13, bytes.len() < 22, 12);
    "12 before 14", read: |bytes| swapped(bytes, 14, is_short(bytes), 12);
    "7 before 12", read: |bytes| swapped(bytes, 12, has_bad_window(bytes), 7);
    "7 before 14", read: |bytes| swapped(bytes, 14, has_bad_window(bytes), 7);
    "a kind of its lower byte", read: |bytes| copied(bytes, |copy| copy[5] = 0);
    "a kind of 0 as a wrong length", read: |bytes| swapped(bytes, 13, kind(bytes) == Some(0), 14);
    "a length of its three lower bytes", read: |bytes| copied(bytes, |copy| copy[3] = 0);
    "a length of its two lower bytes", read: |bytes| copied(bytes, |copy| copy[2..4].fill(0));
    "a body that may be short of a byte", read: |bytes| {
        let mut longer = bytes.to_vec();
        longer.push(0);
        parsed(&longer)
    };
    "a record that must be the last", read: |bytes| {
        let reading = parsed(bytes);
        if reading.report.count < bytes.len() as u64 { refused(14) } else { reading }
    };
    "a record that takes all bytes", read: |bytes| {
        let mut reading = parsed(bytes);
        if reading.report.is_accepted() {
            reading.report.count = bytes.len() as u64;
        }
        reading
    };
    "a record that takes what its length says", read: |bytes| {
        let mut reading = parsed(bytes);
        if reading.report.is_accepted() {
            reading.report.count -= 4;
        }
        reading
    };
    "a window of 4 taken", read: |bytes| copied(bytes, |copy| {
        if kind(copy) == Some(LOWPASS) && copy.get(22) == Some(&4) {
            copy[22] = 3;
        }
    });
    "a window of its lower 32 bits", read: |bytes| copied(bytes, |copy| {
        if kind(copy) == Some(LOWPASS) && copy.len() >= 30 {
            copy[26..30].fill(0);
        }
    });
    "the beta of every window", read: |bytes| read(bytes, |slip| {
        let beta = bytes.get(30..).and_then(|rest| rest.first_chunk());
        if slip.kind == LOWPASS {
            slip.fields[3] = u64::from_le_bytes(*beta.expect("it was read"));
        }
    });
    "the beta of no window", read: |bytes| read(bytes, |slip| {
        if slip.kind == LOWPASS {
            slip.fields[3] = 0;
        }
    });
    "quiet NaNs", read: |bytes| read(bytes, |slip| {
        for word in &mut slip.fields {
            if f64::from_bits(*word).is_nan() {
                *word |= 1 << 51;
            }
        }
    });
    "a rate for the attenuation of a spec", read: |bytes| read(bytes, |slip| {
        if slip.kind == 2 {
            slip.fields.swap(2, 3);
        }
    });
    "a branch for the channels", read: |bytes| read(bytes, |slip| {
        if slip.kind == 6 {
            slip.fields.swap(0, 1);
        }
    });
    "fields from the highest byte on", read: |bytes| read(bytes, |slip| {
        slip.fields = slip.fields.map(u64::swap_bytes);
    });
    "a ticket beside a refusal", read: |bytes| {
        let mut reading = parsed(bytes);
        if reading.report.number == 7 {
            reading.slip.kind = LOWPASS;
        }
        reading
    };
    "a card whose end is cut off in silence", check: |bytes| broken(bytes, |card| {
        if card.report.number == 12 {
            card.report = Report::accepted(card.tickets, 0.0);
        }
    });
    "a card that ends where its broken record does", check: |bytes| broken(bytes, |card| {
        card.place = bytes.len() as u64;
    });
    "a card that counts its broken record", check: |bytes| broken(bytes, |card| card.tickets += 1);
    "a card that counts no tickets", check: |bytes| {
        let mut card = checked(bytes);
        card.report.count = 0;
        card
    };
    "an empty card refused", check: |bytes| {
        let mut card = checked(bytes);
        if bytes.is_empty() {
            card.report = Report::plain(12);
        }
        card
    };
    "8 before 13 in writing", write: |slip, buffer| {
        in_place(slip, buffer, 13, |slip, buffer, report| of_length(slip, buffer, report))
    };
    "8 before 7 in writing", write: |slip, buffer| {
        in_place(slip, buffer, 7, |slip, buffer, report| of_length(slip, buffer, report))
    };
    "7 before 13 in writing", write: |slip, buffer| {
        in_place(slip, buffer, 13, |slip, _, report| {
            if slip.fields[2] > KAISER { Report::plain(7) } else { report }
        })
    };
    "a kind written of its lower bytes", write: |slip, buffer| recorded(&Slip {
        kind: slip.kind & 0xFFFF,
        ..*slip
    }, buffer);
    "a window of 4 written", write: |slip, buffer| {
        in_place(slip, buffer, 7, |slip, buffer, report| {
            if slip.fields[2] != 4 {
                return report;
            }
            let mut other = *slip;
            other.fields[2] = KAISER;
            recorded(&other, buffer)
        })
    };
    "a window of every kind tested", write: |slip, buffer| {
        if slip.kind == 2 && slip.fields[2] > KAISER {
            Report::plain(7)
        } else {
            recorded(slip, buffer)
        }
    };
    "a buffer that may be longer", write: |slip, buffer| {
        in_place(slip, buffer, 8, |slip, buffer, report| {
            let room = buffer.get_mut(..report.expected as usize);
            room.map_or(report, |room| recorded(slip, room))
        })
    };
    "the lower byte of a buffer's length", write: |slip, buffer| {
        in_place(slip, buffer, 8, |slip, buffer, report| {
            if report.given & 0xFF == report.expected {
                recorded(slip, &mut buffer[..report.expected as usize])
            } else {
                report
            }
        })
    };
    "a record cut where the buffer ends", write: |slip, buffer| {
        in_place(slip, buffer, 8, |slip, buffer, report| {
            let record = written(slip, own(slip)).record;
            if buffer.len() < record.len() {
                buffer.copy_from_slice(&record[..buffer.len()]);
            }
            report
        })
    };
    "a head in a buffer that is refused", write: |slip, buffer| {
        in_place(slip, buffer, 8, |slip, buffer, report| {
            let record = written(slip, own(slip)).record;
            for (byte, head) in buffer.iter_mut().zip(&record[..6]) {
                *byte = *head;
            }
            report
        })
    };
    "a buffer cleared for a window above 3", write: |slip, buffer| {
        in_place(slip, buffer, 7, |_, buffer, report| {
            buffer.fill(0);
            report
        })
    };
    "a buffer cleared for an unknown kind", write: |slip, buffer| {
        in_place(slip, buffer, 13, |_, buffer, report| {
            buffer.fill(0);
            report
        })
    };
    "the record's length and the buffer's exchanged", write: |slip, buffer| {
        in_place(slip, buffer, 8, |_, _, report| Report::length(report.given, report.expected))
    };
    "a length told of what follows it", write: |slip, buffer| {
        in_place(slip, buffer, 8, |_, _, report| Report::length(report.expected - 4, report.given))
    };
    "room for the longest record", write: |slip, buffer| {
        in_place(slip, buffer, 8, |_, _, report| Report::length(46, report.given))
    };
    "bytes that are written and not counted", write: |slip, buffer| {
        spoilt(slip, buffer, |_, report| report.count = 0)
    };
    "bytes counted without the length's own", write: |slip, buffer| {
        spoilt(slip, buffer, |_, report| report.count -= 4)
    };
    "a length that counts itself", write: |slip, buffer| {
        spoilt(slip, buffer, |buffer, _| buffer[0] += 4)
    };
    "a length without the kind", write: |slip, buffer| {
        spoilt(slip, buffer, |buffer, _| buffer[0] -= 2)
    };
    "a length from its highest byte on", write: |slip, buffer| {
        spoilt(slip, buffer, |buffer, _| buffer[..4].reverse())
    };
    "a kind of one byte", write: |slip, buffer| {
        let came = buffer.get(5).copied();
        spoilt(slip, buffer, |buffer, _| buffer[5] = came.unwrap_or_default())
    };
    "a last byte that isn't written", write: |slip, buffer| {
        let came = buffer.last().copied();
        spoilt(slip, buffer, |buffer, _| {
            let last = buffer.len() - 1;
            buffer[last] = came.unwrap_or_default();
        })
    };
    "an unused beta as it came", write: |slip, buffer| {
        spoilt(slip, buffer, |buffer, _| {
            if slip.kind == LOWPASS {
                buffer[30..38].copy_from_slice(&slip.fields[3].to_le_bytes());
            }
        })
    };
    "an unused beta left as the buffer had it", write: |slip, buffer| {
        let came = buffer.to_vec();
        spoilt(slip, buffer, |buffer, _| {
            if slip.kind == LOWPASS && slip.fields[2] != KAISER {
                buffer[30..38].copy_from_slice(&came[30..38]);
            }
        })
    };
    "no beta written", write: |slip, buffer| {
        spoilt(slip, buffer, |buffer, _| {
            if slip.kind == LOWPASS {
                buffer[30..38].fill(0);
            }
        })
    };
    "the beta of Blackman's window written", write: |slip, buffer| {
        spoilt(slip, buffer, |buffer, _| {
            if slip.kind == LOWPASS && slip.fields[2] == KAISER - 1 {
                buffer[30..38].copy_from_slice(&slip.fields[3].to_le_bytes());
            }
        })
    };
    "quiet NaNs written", write: |slip, buffer| written_of(slip, buffer, |slip| {
        for word in &mut slip.fields {
            if f64::from_bits(*word).is_nan() {
                *word |= 1 << 51;
            }
        }
    });
    "one zero written for both", write: |slip, buffer| written_of(slip, buffer, |slip| {
        for word in &mut slip.fields {
            if *word == 1 << 63 {
                *word = 0;
            }
        }
    });
    "counts of their lower 32 bits written", write: |slip, buffer| written_of(slip, buffer, |slip| {
        if slip.kind == HALFBAND {
            slip.fields[1] &= 0xFFFF_FFFF;
        }
    });
    "a span for the samples written", write: |slip, buffer| written_of(slip, buffer, |slip| {
        if slip.kind == 4 {
            slip.fields.swap(1, 2);
        }
    });
    "a rate for the attenuation written", write: |slip, buffer| written_of(slip, buffer, |slip| {
        if slip.kind == 2 {
            slip.fields.swap(2, 3);
        }
    });
    "a branch for the channels written", write: |slip, buffer| written_of(slip, buffer, |slip| {
        if slip.kind == 6 {
            slip.fields.swap(0, 1);
        }
    });
    "kinds 4 and 5 exchanged in writing", write: |slip, buffer| written_of(slip, buffer, |slip| {
        if slip.kind == 4 || slip.kind == 5 {
            slip.kind = 9 - slip.kind;
        }
    });
    "a rate judged before it is written", write: |slip, buffer| {
        let is_bad = f64::from_bits(slip.fields[1]) <= 0.0;
        if slip.kind == LOWPASS && is_bad { Report::plain(1) } else { recorded(slip, buffer) }
    };
    "a judgement of 7 for an unknown kind", judge: |slip| {
        fields_of(slip.kind).map_or(Report::plain(7), |_| judged(slip))
    };
    "a judgement by the kind's lower bytes", judge: |slip| judged(&Slip {
        kind: slip.kind & 0xFFFF,
        ..*slip
    });
    "a judgement of samples for the span", judge: |slip| {
        let mut other = *slip;
        if slip.kind == 4 || slip.kind == 5 {
            other.fields.swap(1, 2);
        }
        judged(&other)
    };
    "a judgement of a beta that nobody looks at", judge: |slip| {
        let report = judged(slip);
        let beta = f64::from_bits(slip.fields[3]);
        if slip.kind == LOWPASS && report.is_accepted() && beta.is_nan() {
            Report::plain(4)
        } else {
            report
        }
    };
    "no test of the count", design: straight;
    "no test of a half-band's count", design: |slip, buffer| {
        if slip.kind == HALFBAND { straight(slip, buffer) } else { right(slip, buffer) }
    };
    "the count after the numbers", design: |slip, buffer| {
        miscounted(slip, buffer, |slip, buffer, report| {
            let ticket = asked(slip, buffer.len() as u64).expect("a low-pass or a half-band");
            match designers::rust(&ticket).report {
                straight if straight.is_accepted() => report,
                straight => straight,
            }
        })
    };
    "the count and the buffer's length exchanged", design: |slip, buffer| {
        miscounted(slip, buffer, |_, _, report| Report::length(report.given, report.expected))
    };
    "the count in bytes", design: |slip, buffer| {
        miscounted(slip, buffer, |_, _, report| {
            Report::length(report.expected.wrapping_mul(8), 8 * report.given)
        })
    };
    "a count of its lower 32 bits", design: |slip, buffer| {
        miscounted(slip, buffer, |slip, buffer, report| {
            if report.expected & 0xFFFF_FFFF == report.given {
                straight(slip, buffer)
            } else {
                report
            }
        })
    };
    "a count whose bytes are cut to 64 bits", design: |slip, buffer| {
        miscounted(slip, buffer, |slip, buffer, report| {
            if report.expected.wrapping_mul(8) == 8 * report.given {
                straight(slip, buffer)
            } else {
                report
            }
        })
    };
    "a buffer cleared where the count is wrong", design: |slip, buffer| {
        miscounted(slip, buffer, |_, buffer, report| {
            buffer.fill(0);
            report
        })
    };
    "the count before the bytes", design: |slip, buffer| {
        let whole = buffer.len() as u64 / 8 * 8;
        match count_refused(slip, whole) {
            Some(report) if !is_unknown_window(slip) => report,
            _ => right(slip, buffer),
        }
    };
    "the count before the window", design: |slip, buffer| {
        count_refused(slip, buffer.len() as u64).unwrap_or_else(|| right(slip, buffer))
    };
    "the bytes before the kind", design: |slip, buffer| match in_bytes(buffer) {
        Some(report) if fields_of(slip.kind).is_none() => report,
        _ => right(slip, buffer),
    };
    "the bytes before the window", design: |slip, buffer| match in_bytes(buffer) {
        Some(report) if is_unknown_window(slip) => report,
        _ => right(slip, buffer),
    };
    "a design by the kind's lower bytes", design: |slip, buffer| {
        of(slip, buffer, |slip| slip.kind &= 0xFFFF)
    };
    "a root-raised cosine for a Gaussian pulse", design: |slip, buffer| {
        of(slip, buffer, |slip| slip.kind += u64::from(slip.kind == 4))
    };
    "samples for the span", design: |slip, buffer| of(slip, buffer, |slip| {
        if slip.kind == 5 {
            slip.fields.swap(1, 2);
        }
    });
    "the edges of a channelizer exchanged", design: |slip, buffer| of(slip, buffer, |slip| {
        if slip.kind == 6 {
            slip.fields.swap(2, 3);
        }
    });
    "a Hann window for Hamming's", design: |slip, buffer| of(slip, buffer, |slip| {
        if slip.kind == LOWPASS && slip.fields[2] == 1 {
            slip.fields[2] = 0;
        }
    });
    "a length of the others before their numbers", design: |slip, buffer| {
        let report = right(slip, buffer);
        let [_, samples, span, ..] = slip.fields;
        let taps = samples.saturating_mul(span).saturating_add(1);
        if slip.kind == 4 && report.number == 5 && taps != buffer.len() as u64 / 8 {
            Report::length(taps, buffer.len() as u64 / 8)
        } else {
            report
        }
    };
];

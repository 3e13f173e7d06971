//! Tickets on a card: the request's reader and its writer, and what a ticket must be designed to, by the Rust's design
//! of its kind.

pub mod bench;
pub mod compare;
pub mod faults;
pub mod inputs;
pub mod kinds;

use peldozkar::raw;

use crate::run::designers::{self, Answer};
use crate::run::port;
use crate::run::report::Report;
use crate::run::tickets::{Band, Channels, Cosine, Kind, Pulse, Spec, Ticket};

/// A ticket as a card has it: its kind, and its fields as words.
pub use peldozkar::raw::Ticket as Slip;

/// What stands in a field of eight bytes.
#[derive(Clone, Copy, Debug, PartialEq, Eq)]
pub enum Field {
    Float,
    Count,
    /// The code of a window.
    Window,
    /// A float that counts for one window alone.
    Beta,
}

use Field::{Beta, Count, Float, Window};

/// The fields of the kinds 1 to 6, as the request lists them.
pub const FIELDS: [&[Field]; 6] = [
    &[Float, Float, Window, Beta, Count],
    &[Float, Float, Float, Float, Count],
    &[Float, Count],
    &[Float, Count, Count],
    &[Float, Count, Count],
    &[Count, Count, Float, Float, Float],
];

/// The designers of the kinds 1 to 6.
pub const DESIGNERS: [Kind; 6] = [
    Kind::Lowpass,
    Kind::SpecDesign,
    Kind::Halfband,
    Kind::Gaussian,
    Kind::Rrc,
    Kind::ChannelizerPrototype,
];

pub const LOWPASS: u64 = 1;
pub const HALFBAND: u64 = 3;
/// The code of the last window, which alone has a beta.
pub const KAISER: u64 = 3;

/// The fields of a kind, if there is one.
pub fn fields_of(kind: u64) -> Option<&'static [Field]> {
    let place = usize::try_from(kind.checked_sub(1)?).ok()?;
    FIELDS.get(place).copied()
}

/// What reading answers: the ticket, and the report, whose count is how many bytes were taken.
#[derive(Clone, Copy, Debug)]
pub struct Reading {
    pub slip: Slip,
    pub report: Report,
}

impl From<raw::Reading> for Reading {
    fn from(reading: raw::Reading) -> Self {
        Self {
            slip: reading.ticket,
            report: reading.report.into(),
        }
    }
}

impl Reading {
    /// Whether every field is the same; a NaN's bits count, since the ticket keeps them.
    pub fn same(&self, other: &Self) -> bool {
        self.slip == other.slip && self.report.same(&other.report)
    }
}

/// What checking a card answers.
#[derive(Clone, Copy, Debug)]
pub struct Checked {
    pub tickets: u64,
    pub place: u64,
    pub report: Report,
}

impl From<raw::Card> for Checked {
    fn from(card: raw::Card) -> Self {
        Self {
            tickets: card.tickets,
            place: card.place,
            report: card.report.into(),
        }
    }
}

impl Checked {
    pub fn same(&self, other: &Self) -> bool {
        (self.tickets, self.place) == (other.tickets, other.place)
            && self.report.same(&other.report)
    }
}

/// The ticket that the bytes begin with and how many it takes, or the number of the error.
fn parse(bytes: &[u8]) -> Result<(Slip, usize), u32> {
    // Fewer than six bytes.
    let (&[a, b, c, d, low, high], rest) = bytes.split_first_chunk().ok_or(12_u32)?;
    let kind = u64::from(u16::from_le_bytes([low, high]));
    let fields = fields_of(kind).ok_or(13_u32)?;
    // The length is of what follows it: the kind and the fields.
    if u32::from_le_bytes([a, b, c, d]) as usize != 2 + 8 * fields.len() {
        return Err(14);
    }
    let body = rest.get(..8 * fields.len()).ok_or(12_u32)?;
    let mut slip = Slip {
        kind,
        ..Slip::default()
    };
    for (field, word) in slip.fields.iter_mut().zip(body.as_chunks().0) {
        *field = u64::from_le_bytes(*word);
    }
    if let Some(place) = fields.iter().position(|&field| field == Window) {
        let window = slip.fields[place];
        if window > KAISER {
            return Err(7);
        }
        if window != KAISER {
            slip.fields[place + 1] = 0;
        }
    }
    Ok((slip, 6 + body.len()))
}

/// What the request says of bytes.
pub fn parsed(bytes: &[u8]) -> Reading {
    match parse(bytes) {
        Ok((slip, taken)) => Reading {
            slip,
            report: Report::accepted(taken as u64, 0.0),
        },
        Err(number) => Reading {
            slip: Slip::default(),
            report: Report::plain(number),
        },
    }
}

/// Record by record with that, to the end or to the first that is refused.
pub fn checked(bytes: &[u8]) -> Checked {
    let (mut tickets, mut place) = (0, 0);
    while place < bytes.len() {
        match parse(&bytes[place..]) {
            Ok((_, taken)) => {
                place += taken;
                tickets += 1;
            }
            Err(number) => {
                return Checked {
                    tickets,
                    place: place as u64,
                    report: Report::plain(number),
                };
            }
        }
    }
    Checked {
        tickets,
        place: place as u64,
        report: Report::accepted(tickets, 0.0),
    }
}

/// What writing answers, and the bytes that it leaves in the buffer, none where it is refused.
#[derive(Clone, Debug)]
pub struct Written {
    pub report: Report,
    pub record: Vec<u8>,
}

/// What the request says of writing a ticket into a buffer of so many bytes: 13, then 7, then the length, then the
/// record, with zeros for a beta that doesn't count.
pub fn written(slip: &Slip, bytes: u64) -> Written {
    let refused = |report| Written {
        report,
        record: Vec::new(),
    };
    let Some(fields) = fields_of(slip.kind) else {
        return refused(Report::plain(13));
    };
    let mut body = Vec::new();
    let mut window = KAISER;
    for (&field, &word) in fields.iter().zip(&slip.fields) {
        if field == Window {
            window = word;
        }
        let kept = field != Beta || window == KAISER;
        body.extend(if kept { word } else { 0 }.to_le_bytes());
    }
    if window > KAISER {
        return refused(Report::plain(7));
    }
    // The length is of what follows it: the kind and the fields.
    let mut record = (2 + body.len() as u32).to_le_bytes().to_vec();
    record.extend((slip.kind as u16).to_le_bytes());
    record.extend(body);
    if record.len() as u64 != bytes {
        return refused(Report::length(record.len() as u64, bytes));
    }
    Written {
        report: Report::accepted(bytes, 0.0),
        record,
    }
}

/// What the designer of a ticket's kind is asked, for a buffer of so many bytes; nothing for an unknown kind.
pub fn asked(slip: &Slip, bytes: u64) -> Option<Ticket> {
    let [a, b, c, d, e] = slip.fields;
    let float = f64::from_bits;
    Some(match slip.kind {
        1 => Ticket::Lowpass {
            band: Band {
                cutoff: float(a),
                rate: float(b),
                window: c,
                beta: float(d),
            },
            bytes,
        },
        2 => Ticket::SpecDesign {
            spec: Spec {
                cutoff: float(a),
                transition: float(b),
                attenuation: float(c),
                rate: float(d),
                max_taps: e,
            },
            bytes,
        },
        3 => Ticket::Halfband {
            beta: float(a),
            bytes,
        },
        4 => Ticket::Gaussian {
            pulse: Pulse {
                bt: float(a),
                samples: b,
                span: c,
            },
            bytes,
        },
        5 => Ticket::Rrc {
            cosine: Cosine {
                rolloff: float(a),
                samples: b,
                span: c,
            },
            bytes,
        },
        6 => Ticket::ChannelizerPrototype {
            channels: Channels {
                channels: a,
                passband: float(c),
                stopband: float(d),
                attenuation: float(e),
            },
            branch: b,
            bytes,
        },
        _ => return None,
    })
}

/// The number of taps that a ticket of kind 1 or 3 says.
pub fn count(slip: &Slip) -> Option<u64> {
    match slip.kind {
        LOWPASS => Some(slip.fields[4]),
        HALFBAND => Some(slip.fields[1]),
        _ => None,
    }
}

/// Whether a ticket has a window that no card has.
pub fn is_unknown_window(slip: &Slip) -> bool {
    slip.kind == LOWPASS && slip.fields[2] > KAISER
}

/// The refusal of a buffer that isn't the number of taps that the ticket says.
pub fn count_refused(slip: &Slip, bytes: u64) -> Option<Report> {
    let count = count(slip).filter(|&count| count != bytes / 8)?;
    bytes
        .is_multiple_of(8)
        .then(|| Report::length(count, bytes / 8))
}

/// What a design must answer and leave: 13, then 7, then a length in bytes, which the designer of the kind tests first,
/// then the count, then the Rust's design.
pub fn designed(slip: &Slip, bytes: u64) -> Answer {
    let Some(ticket) = asked(slip, bytes) else {
        return Report::plain(13).into();
    };
    match count_refused(slip, bytes) {
        Some(report) if !is_unknown_window(slip) => report.into(),
        _ => designers::rust(&ticket),
    }
}

/// What the judgement must answer: 13, or the Rust's record.
pub fn judged(slip: &Slip) -> Report {
    let Some(ticket) = asked(slip, 0) else {
        return Report::plain(13);
    };
    let ticket = match ticket {
        Ticket::Lowpass { band, .. } => Ticket::LowpassNew {
            band,
            taps: slip.fields[4],
        },
        Ticket::SpecDesign { spec, .. } => Ticket::SpecLowpass { spec },
        Ticket::Halfband { beta, .. } => Ticket::HalfbandNew {
            beta,
            taps: slip.fields[1],
        },
        Ticket::Gaussian { pulse, .. } => Ticket::GaussianNew { pulse },
        Ticket::Rrc { cosine, .. } => Ticket::RrcNew { cosine },
        Ticket::ChannelizerPrototype {
            channels, branch, ..
        } => Ticket::ChannelizerLowpass { channels, branch },
        other => other,
    };
    designers::rust(&ticket).report
}

/// One side of the comparison.
#[derive(Clone, Copy)]
pub struct Side {
    pub read: fn(&[u8]) -> Reading,
    pub check: fn(&[u8]) -> Checked,
    pub write: fn(&Slip, &mut [u8]) -> Report,
    pub judge: fn(&Slip) -> Report,
    pub design: fn(&Slip, &mut [u8]) -> Report,
}

/// The library.
pub const PORT: Side = Side {
    read: port::read_ticket,
    check: port::check_card,
    write: port::write_ticket,
    judge: port::judge_ticket,
    design: port::design_ticket,
};

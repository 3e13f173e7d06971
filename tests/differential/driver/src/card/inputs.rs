//! Cards of tickets: telling ones, and random ones whose records are broken in many ways.

use crate::card::{DESIGNERS, Field, KAISER, LOWPASS, Slip, asked, count, fields_of};
use crate::run::draw::{CAP, COUNTS, Draw, RANDOM_TAPS};
use crate::run::inputs;
use crate::run::random::Random;
use crate::run::tickets::Ticket;
use crate::spec;

/// The bytes of a card, and the length of the buffer that each of its tickets is designed into.
#[derive(Clone, Debug, Default)]
pub struct Card {
    pub bytes: Vec<u8>,
    pub buffers: Vec<u64>,
}

/// A ticket of a designer as a card has it, and the length of its buffer.
pub fn slip_of(ticket: &Ticket) -> (Slip, u64) {
    let bits = f64::to_bits;
    let taps = ticket.bytes() / 8;
    let (kind, fields) = match *ticket {
        Ticket::Lowpass { band, .. } => {
            let (cutoff, rate) = (bits(band.cutoff), bits(band.rate));
            (1, [cutoff, rate, band.window, bits(band.beta), taps])
        }
        Ticket::SpecDesign { spec, .. } => {
            let band = [spec.cutoff, spec.transition, spec.attenuation, spec.rate].map(bits);
            (2, [band[0], band[1], band[2], band[3], spec.max_taps])
        }
        Ticket::Halfband { beta, .. } => (3, [bits(beta), taps, 0, 0, 0]),
        Ticket::Gaussian { pulse, .. } => (4, [bits(pulse.bt), pulse.samples, pulse.span, 0, 0]),
        Ticket::Rrc { cosine, .. } => {
            let rolloff = bits(cosine.rolloff);
            (5, [rolloff, cosine.samples, cosine.span, 0, 0])
        }
        Ticket::ChannelizerPrototype {
            channels, branch, ..
        } => {
            let edges = [channels.passband, channels.stopband, channels.attenuation].map(bits);
            let [passband, stopband, attenuation] = edges;
            (
                6,
                [channels.channels, branch, passband, stopband, attenuation],
            )
        }
        _ => panic!("{ticket:?} has no place on a card"),
    };
    (Slip { kind, fields }, ticket.bytes())
}

/// A record with the length and the kind that are said, and as many fields as are given.
fn put(length: u32, kind: u16, fields: &[u64]) -> Vec<u8> {
    let mut bytes = length.to_le_bytes().to_vec();
    bytes.extend(kind.to_le_bytes());
    bytes.extend(fields.iter().flat_map(|field| field.to_le_bytes()));
    bytes
}

/// How many fields the kind has, an unknown one as many as there can be.
fn width(slip: &Slip) -> usize {
    fields_of(slip.kind).map_or(slip.fields.len(), <[Field]>::len)
}

/// The lengths of the two buffers that a ticket is written into: that of its record, and one of these in turn: a byte
/// or a field too few or too many, 256 bytes too many, and all up to 60.
pub fn room(slip: &Slip, turn: u64) -> [u64; 2] {
    let own = 6 + 8 * width(slip) as u64;
    let row = [own - 1, own + 1, own - 8, own + 8, own + 256, turn / 6 % 61];
    [own, row[(turn % 6) as usize]]
}

/// The record of a ticket.
pub fn record(slip: &Slip) -> Vec<u8> {
    let count = width(slip);
    put(
        2 + 8 * count as u32,
        slip.kind as u16,
        &slip.fields[..count],
    )
}

/// Whether a ticket may take long to judge or to design: those are read alone.
pub fn is_long(slip: &Slip) -> bool {
    let most = RANDOM_TAPS + 1..=CAP + 1;
    let [_, b, c, ..] = slip.fields;
    match asked(slip, 0) {
        Some(Ticket::SpecDesign { spec, .. }) => most.contains(&spec::inputs::needed(&spec)),
        Some(Ticket::Gaussian { .. } | Ticket::Rrc { .. }) => {
            most.contains(&b.saturating_mul(c).saturating_add(1))
        }
        _ => count(slip).is_some_and(|count| most.contains(&count)),
    }
}

/// A card of one record.
fn one(record: Vec<u8>, buffer: u64) -> Card {
    Card {
        bytes: record,
        buffers: vec![buffer],
    }
}

/// A ticket of each kind that is designed, and its buffer.
fn good() -> Vec<(Slip, u64)> {
    let bits = f64::to_bits;
    let rows: [(u64, [u64; 5], u64); 7] = [
        (
            1,
            [bits(1000.0), bits(8000.0), 0, 0x7FF0_0000_0000_0001, 31],
            31,
        ),
        (1, [bits(0.25), bits(1.0), 3, bits(8.0), 9], 9),
        (
            2,
            [bits(1000.0), bits(800.0), bits(60.0), bits(8000.0), 99],
            39,
        ),
        (3, [bits(8.0), 31, 0, 0, 0], 31),
        (4, [bits(0.5), 8, 4, 0, 0], 33),
        (5, [bits(0.5), 8, 8, 0, 0], 65),
        (6, [16, 8, bits(0.5), bits(1.0), bits(60.0)], 128),
    ];
    rows.map(|(kind, fields, taps)| (Slip { kind, fields }, 8 * taps))
        .to_vec()
}

/// Cards in which each refusal and each case is met.
pub fn telling() -> Vec<Card> {
    let mut all = vec![Card::default()];
    let mut whole = Card::default();
    for (slip, buffer) in good() {
        whole.bytes.extend(record(&slip));
        whole.buffers.push(buffer);
    }
    all.push(whole.clone());
    for (slip, buffer) in good() {
        let good = record(&slip);
        // Cut at each byte, alone and behind other records.
        for end in 1..good.len() {
            all.push(one(good[..end].to_vec(), buffer));
            let mut card = whole.clone();
            card.bytes.extend(&good[..end]);
            card.buffers.push(buffer);
            all.push(card);
        }
        // Two faults each: the kind, the length, the body, the window.
        let count = width(&slip);
        let right = 2 + 8 * count as u32;
        let mut windowed = slip.fields;
        windowed[2] = 4;
        for length in [
            0,
            right - 8,
            right - 1,
            right,
            right + 1,
            right + 256,
            1 << 31,
            u32::MAX,
        ] {
            for kind in [slip.kind as u16, 0, 7, 256 + slip.kind as u16, u16::MAX] {
                for fields in [slip.fields, windowed] {
                    let spoilt = put(length, kind, &fields[..count]);
                    for end in [6, spoilt.len() - 1, spoilt.len()] {
                        all.push(one(spoilt[..end].to_vec(), buffer));
                    }
                }
            }
        }
    }
    // What each designer tells most by; a half-band's and a low-pass's count also where it isn't the buffer's.
    for kind in DESIGNERS {
        for ticket in inputs::telling(kind) {
            let (slip, buffer) = slip_of(&ticket);
            all.push(one(record(&slip), buffer));
            if count(&slip).is_some() {
                all.push(one(record(&slip), buffer + 8));
                all.push(one(record(&slip), buffer + 3));
            }
        }
    }
    all
}

/// A random ticket of a random kind, and the length of its buffer.
fn slip(random: &mut Random) -> (Slip, u64) {
    let kind = DESIGNERS[random.below(6) as usize];
    let ticket = inputs::draw(kind, random);
    let (mut slip, mut buffer) = slip_of(&ticket);
    let mut draw = Draw::new(random);
    // A beta that nobody looks at is any bits.
    if slip.kind == LOWPASS && slip.fields[2] != KAISER && draw.random.below(2) == 0 {
        slip.fields[3] = draw.random.bits();
    }
    if count(&slip).is_some() && draw.random.below(6) == 0 {
        let own = buffer / 8;
        let place = if slip.kind == LOWPASS { 4 } else { 1 };
        let any = draw.random.below(2 * own + 2);
        let limit = draw.one_of(&COUNTS);
        let row = [
            own + 1,
            own.wrapping_sub(1),
            own | 1 << 32,
            own | 1 << 61,
            any,
            limit,
        ];
        slip.fields[place] = draw.one_of(&row);
    }
    if draw.random.below(12) == 0 {
        buffer += draw.random.below(17);
    }
    // Now and then any bits in a field: a float of any pattern, a count of any size.
    if draw.random.below(8) == 0 {
        let place = draw.random.below(width(&slip) as u64) as usize;
        slip.fields[place] = draw.random.bits() >> draw.random.below(64);
    }
    (slip, buffer)
}

/// A record that is broken in its head, in a byte or at its end.
fn spoil(record: &mut Vec<u8>, random: &mut Random) {
    for _ in 0..=random.below(3) {
        let place = random.below(record.len().max(1) as u64) as usize;
        match random.below(8) {
            0 => record.truncate(place),
            1 if record.len() >= 4 => {
                let any = random.bits() as u32;
                let row = [
                    any % 64,
                    any,
                    u32::MAX,
                    u32::from(record[0]) | 1 << random.below(32),
                ];
                let length = row[random.below(4) as usize];
                record[..4].copy_from_slice(&length.to_le_bytes());
            }
            2 if record.len() >= 6 => {
                let kind = [random.below(9), random.bits()][random.below(2) as usize] as u16;
                record[4..6].copy_from_slice(&kind.to_le_bytes());
            }
            3 => record.insert(place, random.bits() as u8),
            4 if !record.is_empty() => {
                record.remove(place);
            }
            _ if !record.is_empty() => record[place] = random.bits() as u8,
            _ => {}
        }
    }
}

/// A random card of up to 12 records, as a rule whole.
pub fn draw(random: &mut Random) -> Card {
    let mut card = Card::default();
    let spoilt = random.below(3) == 0;
    for _ in 0..random.below(12) {
        let (slip, buffer) = slip(random);
        let mut record = record(&slip);
        if spoilt && random.below(4) == 0 {
            spoil(&mut record, random);
        }
        card.bytes.extend(record);
        card.buffers.push(buffer);
    }
    if random.below(6) == 0 {
        let end = random.below(card.bytes.len() as u64 + 1);
        card.bytes.truncate(end as usize);
    }
    card
}

/// A ticket as a caller may give it without a card: rubbish in what its kind doesn't use, kinds and windows that there
/// aren't; and the length of its buffer.
pub fn forged(random: &mut Random) -> (Slip, u64) {
    let (mut forged, buffer) = slip(random);
    let unused = width(&forged)..forged.fields.len();
    for field in &mut forged.fields[unused] {
        *field = random.bits();
    }
    if random.below(6) == 0 {
        let row = [0, 7, 8, 256, 65_536, 1 << 32, u64::MAX, random.bits()];
        let other = row[random.below(8) as usize];
        forged.kind = if random.below(2) == 0 {
            other
        } else {
            forged.kind | other
        };
    }
    if forged.kind == LOWPASS && random.below(4) == 0 {
        forged.fields[2] |= 4 << random.below(62);
    }
    (forged, buffer)
}

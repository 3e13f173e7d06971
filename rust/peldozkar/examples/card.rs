//! A card of tickets as a field crew carries it: each one is designed into a buffer of its own length or refused, up to
//! a record that is broken; and one with a slip is corrected and written back.

use peldozkar::{Card, Error, Reason, Ticket, check_card, read_ticket};

/// A record: the length of what follows, the kind, the fields.
fn record(kind: u16, fields: &[u64]) -> Vec<u8> {
    let length = 2 + 8 * fields.len() as u32;
    let mut bytes = length.to_le_bytes().to_vec();
    bytes.extend(kind.to_le_bytes());
    bytes.extend(fields.iter().flat_map(|field| field.to_le_bytes()));
    bytes
}

/// The taps of a ticket.
fn design(ticket: &Ticket) -> Result<Vec<f64>, Error> {
    let mut taps = vec![0.0; ticket.judge()?.taps() as usize];
    ticket.design(&mut taps)?;
    Ok(taps)
}

/// Corrects the rate of the low-pass whose record begins at a place of the card, and writes it there if a filter comes
/// of it.
fn correct(card: &mut [u8], place: usize, right: f64) -> Result<(), Error> {
    let (mut ticket, _) = read_ticket(&card[place..])?;
    if let Ticket::Lowpass { rate, .. } = &mut ticket {
        *rate = right.into();
    }
    ticket.judge()?;
    let end = place + ticket.record_length();
    ticket.write(&mut card[place..end])?;
    Ok(())
}

fn main() -> Result<(), Box<dyn std::error::Error>> {
    let bits = f64::to_bits;
    let mut bytes = record(3, &[bits(8.0), 31]);
    bytes.extend(record(4, &[bits(0.5), 8, 4]));
    // A rate that no filter has: the record is a good one, and its ticket is refused.
    let slip = bytes.len();
    bytes.extend(record(1, &[bits(1000.0), bits(-1.0), 0, 0, 31]));
    bytes.extend(record(5, &[bits(0.5), 8, 8]));
    println!("{} bytes, {} tickets", bytes.len(), check_card(&bytes)?);

    let mut made = Vec::new();
    for ticket in Card::new(&bytes) {
        let ticket = ticket?;
        match design(&ticket) {
            Ok(taps) => {
                println!("{ticket:?}: {} taps", taps.len());
                made.push(taps.len());
            }
            Err(error) => println!("{ticket:?}: {error}"),
        }
    }
    assert_eq!(made, [31, 33, 65]);

    // The crew corrects the rate, and the ticket stands in its place again; every other byte is as it was.
    let mut wanted = bytes.clone();
    wanted[slip + 14..slip + 22].copy_from_slice(&8000.0_f64.to_le_bytes());
    correct(&mut bytes, slip, 8000.0)?;
    assert_eq!(bytes, wanted);
    let (ticket, _) = read_ticket(&bytes[slip..])?;
    println!("corrected: {ticket:?}: {} taps", design(&ticket)?.len());

    // The card was pulled out while the last record was written: the tickets before it are there.
    let mut card = Card::new(&bytes[..bytes.len() - 3]);
    assert_eq!(card.by_ref().filter(Result::is_ok).count(), 3);
    let broken = check_card(&bytes[..bytes.len() - 3]).expect_err("three bytes are missing");
    println!("{broken}");
    assert_eq!(broken.error.reason, Reason::CutShort);
    assert_eq!((broken.tickets, broken.place), (3, card.place()));
    Ok(())
}

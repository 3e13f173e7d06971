//! Tickets on a card: records one behind the other, read as tickets, designed and written back.

use core::fmt;
use core::iter::FusedIterator;

use crate::raw;
use crate::sys::bytes_mut;
use crate::{Carried, Design, Error, Reason, Rrc};

/// A float of a ticket as its 64 bits, which a NaN keeps too. So tickets can be compared, and a ticket is the record
/// that it was read from.
///
/// ```
/// use peldozkar::Bits;
///
/// assert_eq!(Bits::from(8.0).value(), 8.0);
/// assert_eq!(Bits(0x7FF0_0000_0000_0001), Bits(0x7FF0_0000_0000_0001));
/// assert_ne!(Bits::from(0.0), Bits::from(-0.0));
/// ```
#[derive(Clone, Copy, PartialEq, Eq, Hash)]
pub struct Bits(pub u64);

impl Bits {
    /// The float.
    pub const fn value(self) -> f64 {
        f64::from_bits(self.0)
    }
}

impl From<f64> for Bits {
    fn from(value: f64) -> Self {
        Self(value.to_bits())
    }
}

/// The float, and of a NaN its bits.
impl fmt::Debug for Bits {
    fn fmt(&self, f: &mut fmt::Formatter<'_>) -> fmt::Result {
        if self.value().is_nan() {
            write!(f, "Bits({:#018X})", self.0)
        } else {
            write!(f, "Bits({:?})", self.value())
        }
    }
}

/// The window of a low-pass's ticket. Later versions may have more of them. A loaded window
/// ([`Cosines`](crate::Cosines)) has no code on a card.
#[derive(Clone, Copy, Debug, PartialEq, Eq, Hash)]
#[non_exhaustive]
pub enum TicketWindow {
    /// Hann's.
    Hann,
    /// Hamming's.
    Hamming,
    /// Blackman's.
    Blackman,
    /// Kaiser's, with its beta.
    Kaiser(Bits),
}

impl TicketWindow {
    /// The window of a code and the beta beside it, which counts for Kaiser's alone.
    const fn of(code: u64, beta: u64) -> Option<Self> {
        match code {
            raw::HANN => Some(Self::Hann),
            raw::HAMMING => Some(Self::Hamming),
            raw::BLACKMAN => Some(Self::Blackman),
            raw::KAISER => Some(Self::Kaiser(Bits(beta))),
            _ => None,
        }
    }

    /// The code, and the beta's bits.
    const fn coded(self) -> (u64, u64) {
        match self {
            Self::Hann => (raw::HANN, 0),
            Self::Hamming => (raw::HAMMING, 0),
            Self::Blackman => (raw::BLACKMAN, 0),
            Self::Kaiser(beta) => (raw::KAISER, beta.0),
        }
    }
}

/// A ticket of a card: the numbers of one design. Later versions may have more kinds.
///
/// Reading judges no number but the code of the window, and [`write`](Self::write) none; [`judge`](Self::judge) and
/// [`design`](Self::design) do.
///
/// # Examples
///
/// ```
/// # fn main() -> Result<(), peldozkar::Error> {
/// use peldozkar::{Carried, Reason, Ticket, halfband};
///
/// let ticket = Ticket::Halfband { beta: 8.0.into(), count: 31 };
/// let mut taps = [0.0; 31];
/// assert_eq!(ticket.judge()?.taps(), 31);
/// ticket.design(&mut taps)?;
///
/// // The taps that the function of its kind gives.
/// let mut same = [0.0; 31];
/// halfband(8.0, &mut same)?;
/// assert_eq!(taps, same);
///
/// // A buffer that isn't as long as the ticket says.
/// let error = ticket.design(&mut taps[..27]).unwrap_err();
/// assert_eq!(error.reason, Reason::Length);
/// assert_eq!(error.carried, Carried::Length { expected: 31, given: 27 });
/// # Ok(())
/// # }
/// ```
#[derive(Clone, Copy, Debug, PartialEq, Eq, Hash)]
#[non_exhaustive]
pub enum Ticket {
    /// 1: a low-pass by its taps, as [`lowpass`](crate::lowpass) designs it.
    Lowpass {
        /// The cutoff.
        cutoff: Bits,
        /// The rate.
        rate: Bits,
        /// The window.
        window: TicketWindow,
        /// The number of taps.
        count: u64,
    },
    /// 2: a low-pass by what it has to do, as [`Spec`](crate::Spec) designs it.
    Spec {
        /// The middle of the transition.
        cutoff: Bits,
        /// How wide it is.
        transition: Bits,
        /// The attenuation beyond it in dB.
        attenuation: Bits,
        /// The rate.
        rate: Bits,
        /// How many taps it may have.
        max_taps: u64,
    },
    /// 3: a half-band, as [`halfband`](crate::halfband) designs it.
    Halfband {
        /// Kaiser's beta.
        beta: Bits,
        /// The number of taps.
        count: u64,
    },
    /// 4: a Gaussian pulse, as [`gaussian`](crate::gaussian) designs it.
    Gaussian {
        /// The bandwidth in symbol rates.
        bt: Bits,
        /// The samples of a symbol.
        samples: u64,
        /// The length in symbols.
        span: u64,
    },
    /// 5: a root-raised cosine, as [`rrc`](crate::rrc) designs it.
    Rrc {
        /// The roll-off.
        rolloff: Bits,
        /// The samples of a symbol.
        samples: u64,
        /// The length in symbols.
        span: u64,
    },
    /// 6: a channelizer's prototype, as [`channelizer_prototype`](crate::channelizer_prototype) designs it.
    Channelizer {
        /// How many channels.
        channels: u64,
        /// The taps of a branch.
        branch: u64,
        /// The end of the passband in channel spacings.
        passband: Bits,
        /// The beginning of the stopband in channel spacings.
        stopband: Bits,
        /// The attenuation in dB.
        attenuation: Bits,
    },
}

/// A refusal that carries its number alone.
const fn plain(reason: Reason) -> Error {
    Error {
        reason,
        carried: Carried::Nothing,
    }
}

impl Ticket {
    /// The ticket of a record as C has it. A kind or a window that this crate doesn't know is refused as an unknown
    /// one; only a library that is newer than it reads such a record.
    #[inline]
    fn of(ticket: &raw::Ticket) -> Result<Self, Error> {
        let [a, b, c, d, e] = ticket.fields;
        match ticket.kind {
            raw::TICKET_LOWPASS => Ok(Self::Lowpass {
                cutoff: Bits(a),
                rate: Bits(b),
                window: TicketWindow::of(c, d).ok_or(plain(Reason::Code))?,
                count: e,
            }),
            raw::TICKET_SPEC => Ok(Self::Spec {
                cutoff: Bits(a),
                transition: Bits(b),
                attenuation: Bits(c),
                rate: Bits(d),
                max_taps: e,
            }),
            raw::TICKET_HALFBAND => Ok(Self::Halfband {
                beta: Bits(a),
                count: b,
            }),
            raw::TICKET_GAUSSIAN => Ok(Self::Gaussian {
                bt: Bits(a),
                samples: b,
                span: c,
            }),
            raw::TICKET_RRC => Ok(Self::Rrc {
                rolloff: Bits(a),
                samples: b,
                span: c,
            }),
            raw::TICKET_CHANNELIZER => Ok(Self::Channelizer {
                channels: a,
                branch: b,
                passband: Bits(c),
                stopband: Bits(d),
                attenuation: Bits(e),
            }),
            _ => Err(plain(Reason::Kind)),
        }
    }

    /// The ticket as C has it.
    ///
    /// ```
    /// use peldozkar::{Ticket, raw};
    ///
    /// let record = Ticket::Gaussian { bt: 0.5.into(), samples: 8, span: 4 }.record();
    /// assert_eq!(record.kind, raw::TICKET_GAUSSIAN);
    /// assert_eq!(record.fields, [0.5_f64.to_bits(), 8, 4, 0, 0]);
    /// ```
    pub const fn record(&self) -> raw::Ticket {
        let (kind, fields) = match *self {
            Self::Lowpass {
                cutoff,
                rate,
                window,
                count,
            } => {
                let (code, beta) = window.coded();
                (raw::TICKET_LOWPASS, [cutoff.0, rate.0, code, beta, count])
            }
            Self::Spec {
                cutoff,
                transition,
                attenuation,
                rate,
                max_taps,
            } => (
                raw::TICKET_SPEC,
                [cutoff.0, transition.0, attenuation.0, rate.0, max_taps],
            ),
            Self::Halfband { beta, count } => (raw::TICKET_HALFBAND, [beta.0, count, 0, 0, 0]),
            Self::Gaussian { bt, samples, span } => {
                (raw::TICKET_GAUSSIAN, [bt.0, samples, span, 0, 0])
            }
            Self::Rrc {
                rolloff,
                samples,
                span,
            } => (raw::TICKET_RRC, [rolloff.0, samples, span, 0, 0]),
            Self::Channelizer {
                channels,
                branch,
                passband,
                stopband,
                attenuation,
            } => (
                raw::TICKET_CHANNELIZER,
                [channels, branch, passband.0, stopband.0, attenuation.0],
            ),
        };
        raw::Ticket { kind, fields }
    }

    /// Bytes that have room for a record of any kind.
    ///
    /// ```
    /// use peldozkar::Ticket;
    ///
    /// let ticket = Ticket::Gaussian { bt: 0.5.into(), samples: 8, span: 4 };
    /// let mut room = [0; Ticket::LONGEST_RECORD];
    /// let record = &mut room[..ticket.record_length()];
    /// assert_eq!(ticket.write(record), Ok(30));
    /// ```
    pub const LONGEST_RECORD: usize = raw::LONGEST_RECORD;

    /// How many bytes the ticket's record takes, which is its kind's alone: 46, 46, 22, 30, 30 or 46.
    ///
    /// ```
    /// use peldozkar::Ticket;
    ///
    /// assert_eq!(Ticket::Halfband { beta: 8.0.into(), count: 31 }.record_length(), 22);
    /// ```
    pub const fn record_length(&self) -> usize {
        let fields = match self {
            Self::Lowpass { .. } | Self::Spec { .. } | Self::Channelizer { .. } => 5,
            Self::Gaussian { .. } | Self::Rrc { .. } => 3,
            Self::Halfband { .. } => 2,
        };
        6 + 8 * fields
    }

    /// Writes the ticket as a record into a buffer of [`record_length`](Self::record_length) bytes: how many these are.
    /// [`read_ticket`] reads this very ticket again, whatever follows the record.
    ///
    /// The bits of floats are kept, those of a NaN too, and no number is judged. The beta of a window other than
    /// Kaiser's is written as zeros; a record that has zeros there is written as it was read, byte for byte.
    ///
    /// # Errors
    ///
    /// Refused with `out` as it came:
    /// - 8 `out` isn't as long as the record, both in bytes
    ///
    /// What the export tests before can't come here: a `Ticket` has no kind but 1 to 6 (13), and no window that a card
    /// hasn't, such as a loaded one (7).
    ///
    /// # Examples
    ///
    /// A ticket is read, corrected and written back in its place:
    ///
    /// ```
    /// # fn main() -> Result<(), peldozkar::Error> {
    /// use peldozkar::{Carried, Reason, Ticket, read_ticket};
    ///
    /// // A half-band of 33 taps, which no half-band has, and a byte of what follows.
    /// let mut card = [0; 23];
    /// Ticket::Halfband { beta: 8.0.into(), count: 33 }.write(&mut card[..22])?;
    /// card[22] = 42;
    ///
    /// let (mut ticket, _) = read_ticket(&card)?;
    /// assert_eq!(ticket.judge().unwrap_err().reason, Reason::Count);
    /// if let Ticket::Halfband { count, .. } = &mut ticket {
    ///     *count = 35;
    /// }
    /// assert_eq!(ticket.judge()?.taps(), 35);
    /// assert_eq!(ticket.write(&mut card[..ticket.record_length()])?, 22);
    /// assert_eq!(read_ticket(&card)?, (ticket, &[42][..]));
    ///
    /// // Any other length is refused, a longer one too.
    /// let error = ticket.write(&mut card).unwrap_err();
    /// assert_eq!(error.reason, Reason::Length);
    /// assert_eq!(error.carried, Carried::Length { expected: 22, given: 23 });
    /// # Ok(())
    /// # }
    /// ```
    ///
    /// A NaN comes back with its payload:
    ///
    /// ```
    /// # fn main() -> Result<(), peldozkar::Error> {
    /// use peldozkar::{Bits, Ticket, read_ticket};
    ///
    /// let ticket = Ticket::Halfband { beta: Bits(0x7FF0_0000_0000_0001), count: 31 };
    /// let mut record = [0; 22];
    /// ticket.write(&mut record)?;
    /// assert_eq!(record[6..14], [1, 0, 0, 0, 0, 0, 0xF0, 0x7F]);
    /// assert_eq!(read_ticket(&record)?.0, ticket);
    /// # Ok(())
    /// # }
    /// ```
    ///
    /// The order of the refusals, of tickets as C has them:
    ///
    /// ```
    /// use peldozkar::raw;
    ///
    /// let number = |kind, window| {
    ///     let ticket = raw::Ticket { kind, fields: [0, 0, window, 0, 0] };
    ///     raw::pel_write_ticket(ticket, &mut []).number
    /// };
    /// assert_eq!(number(7, 4), raw::UNKNOWN_KIND);
    /// assert_eq!(number(raw::TICKET_LOWPASS, 4), raw::BAD_CODE);
    /// assert_eq!(number(raw::TICKET_LOWPASS, raw::KAISER), raw::BAD_LENGTH);
    /// ```
    #[inline]
    pub fn write(&self, out: &mut [u8]) -> Result<usize, Error> {
        let written = raw::pel_write_ticket(self.record(), out).counted()?;
        // As many as the buffer has, so nothing is cut.
        Ok(written as usize)
    }

    /// The judgement of [`design`](Self::design) for a buffer of the ticket's own length, without one.
    ///
    /// # Errors
    ///
    /// As [`lowpass_new`](crate::lowpass_new), [`Spec::lowpass`](crate::Spec::lowpass),
    /// [`halfband_new`](crate::halfband_new), [`gaussian_new`](crate::gaussian_new), [`rrc_new`](crate::rrc_new) or
    /// [`channelizer_lowpass`](crate::channelizer_lowpass) with the ticket's numbers.
    ///
    /// # Examples
    ///
    /// ```
    /// use peldozkar::{Reason, Ticket};
    ///
    /// let ticket = |span| Ticket::Rrc { rolloff: 0.5.into(), samples: 8, span };
    /// assert_eq!(ticket(8).judge().map(|figures| figures.taps()), Ok(65));
    /// assert_eq!(ticket(33).judge().unwrap_err().reason, Reason::Count);
    /// ```
    pub fn judge(&self) -> Result<Figures, Error> {
        self.figures(raw::pel_judge_ticket(self.record()))
    }

    /// Fills `out` with the ticket's taps, as the function of its kind does.
    ///
    /// # Errors
    ///
    /// Refused, in this order, with `out` as it came:
    /// - 8 (a low-pass, a half-band) `out` isn't as many taps as the ticket says
    /// - then as [`lowpass`](crate::lowpass), [`Spec::design`](crate::Spec::design), [`halfband`](crate::halfband),
    ///   [`gaussian`](crate::gaussian), [`rrc`](crate::rrc) or
    ///   [`channelizer_prototype`](crate::channelizer_prototype); those of the other kinds have their own 8 there
    ///
    /// # Examples
    ///
    /// ```
    /// # fn main() -> Result<(), peldozkar::Error> {
    /// use peldozkar::{Reason, Ticket, TicketWindow};
    ///
    /// let ticket = |rate: f64| Ticket::Lowpass {
    ///     cutoff: 1000.0.into(),
    ///     rate: rate.into(),
    ///     window: TicketWindow::Kaiser(8.0.into()),
    ///     count: 63,
    /// };
    /// let mut taps = [0.0; 63];
    /// assert_eq!(ticket(8000.0).design(&mut taps)?.taps(), 63);
    ///
    /// // The length comes before the rate.
    /// assert_eq!(ticket(-1.0).design(&mut taps[1..]).unwrap_err().reason, Reason::Length);
    /// assert_eq!(ticket(-1.0).design(&mut taps).unwrap_err().reason, Reason::Rate);
    /// # Ok(())
    /// # }
    /// ```
    pub fn design(&self, out: &mut [f64]) -> Result<Figures, Error> {
        self.figures(raw::pel_design_ticket(self.record(), bytes_mut(out)))
    }

    /// What a report tells of this kind.
    fn figures(&self, report: raw::Report) -> Result<Figures, Error> {
        match self {
            Self::Rrc { .. } => Rrc::of(report).map(Figures::Scaled),
            _ => Design::of(report).map(Figures::Divided),
        }
    }
}

/// The figures of a ticket that is accepted, as the function of its kind tells them. Later versions may have more.
#[derive(Clone, Copy, Debug, PartialEq)]
#[non_exhaustive]
pub enum Figures {
    /// Of every kind but the root-raised cosine: the taps were divided.
    Divided(Design),
    /// Of a root-raised cosine: the taps were multiplied.
    Scaled(Rrc),
}

impl Figures {
    /// The number of taps.
    ///
    /// ```
    /// use peldozkar::{Figures, Ticket, gaussian_new};
    ///
    /// let figures = Ticket::Gaussian { bt: 0.5.into(), samples: 8, span: 4 }.judge();
    /// assert_eq!(figures, gaussian_new(0.5, 8, 4).map(Figures::Divided));
    /// assert_eq!(figures.map(|figures| figures.taps()), Ok(33));
    /// ```
    pub const fn taps(&self) -> u64 {
        match self {
            Self::Divided(design) => design.taps,
            Self::Scaled(rrc) => rrc.taps,
        }
    }
}

/// Reads the record that the bytes begin with: the ticket, and the unread part of the bytes. What follows the record
/// doesn't matter.
///
/// A record is four bytes with the length of what follows, two with the kind, 1 to 6, then the kind's fields in the
/// order of [`Ticket`]'s, eight bytes each, all little-endian. A window is its code and then a beta, which is dropped
/// where the window isn't Kaiser's.
///
/// # Errors
///
/// Refused, in this order; all of the bytes are unread then:
/// - 12 fewer than six bytes
/// - 13 a kind that isn't 1 to 6
/// - 14 a length that isn't the kind's
/// - 12 fewer bytes than the record takes
/// - 7 a window above 3
///
/// # Examples
///
/// ```
/// # fn main() -> Result<(), peldozkar::Error> {
/// use peldozkar::{Reason, Ticket, read_ticket};
///
/// let mut bytes = [0; 24];
/// bytes[0] = 18; // the length: two bytes, and two fields
/// bytes[4] = 3; // a half-band
/// bytes[6..14].copy_from_slice(&8.0_f64.to_le_bytes());
/// bytes[14] = 31;
///
/// let (ticket, unread) = read_ticket(&bytes)?;
/// assert_eq!(ticket, Ticket::Halfband { beta: 8.0.into(), count: 31 });
/// assert_eq!(unread, &bytes[22..]);
///
/// assert_eq!(read_ticket(&bytes[..21]).unwrap_err().reason, Reason::CutShort);
/// bytes[0] = 17;
/// assert_eq!(read_ticket(&bytes).unwrap_err().reason, Reason::RecordLength);
/// # Ok(())
/// # }
/// ```
#[inline]
pub fn read_ticket(source: &[u8]) -> Result<(Ticket, &[u8]), Error> {
    let reading = raw::pel_read_ticket(source);
    let taken = reading.report.counted()?;
    let ticket = Ticket::of(&reading.ticket)?;
    // A record isn't longer than its source, so nothing is cut.
    let unread = source.get(taken as usize..).unwrap_or_default();
    Ok((ticket, unread))
}

/// The first record of a card that isn't read: what comes before it, where it begins and why it is refused.
#[derive(Clone, Copy, Debug, PartialEq)]
pub struct Broken {
    /// How many tickets are before it.
    pub tickets: u64,
    /// The byte at which it begins.
    pub place: usize,
    /// Why it is refused, as [`read_ticket`] says.
    pub error: Error,
}

impl fmt::Display for Broken {
    fn fmt(&self, f: &mut fmt::Formatter<'_>) -> fmt::Result {
        let Self {
            tickets,
            place,
            error,
        } = self;
        write!(f, "the record at byte {place}, after {tickets}: {error}")
    }
}

impl core::error::Error for Broken {
    fn source(&self) -> Option<&(dyn core::error::Error + 'static)> {
        Some(&self.error)
    }
}

/// Reads the bytes of a card ticket by ticket, to their end or to the first record that is refused, which is told once.
/// After either it gives nothing for ever.
///
/// # Examples
///
/// ```
/// use peldozkar::{Card, Reason, Ticket};
///
/// // Two Gaussian pulses, and three bytes of a third record.
/// let mut record = [0; 30];
/// record[0] = 26;
/// record[4] = 4;
/// record[6..14].copy_from_slice(&0.5_f64.to_le_bytes());
/// record[14] = 8;
/// record[22] = 4;
/// let mut bytes = [0; 63];
/// bytes[..30].copy_from_slice(&record);
/// bytes[30..60].copy_from_slice(&record);
///
/// let mut card = Card::new(&bytes);
/// let pulse = Ticket::Gaussian { bt: 0.5.into(), samples: 8, span: 4 };
/// assert_eq!(card.next(), Some(Ok(pulse)));
/// assert_eq!(card.next(), Some(Ok(pulse)));
/// let broken = card.next().unwrap().unwrap_err();
/// assert_eq!((broken.tickets, broken.place), (2, 60));
/// assert_eq!(broken.error.reason, Reason::CutShort);
/// assert_eq!(card.next(), None);
/// assert_eq!(card.unread(), &bytes[60..]);
/// ```
#[derive(Clone, Debug)]
pub struct Card<'a> {
    bytes: &'a [u8],
    /// From the next record on.
    unread: &'a [u8],
    tickets: u64,
    broken: bool,
}

impl<'a> Card<'a> {
    /// A card of these bytes, none of them read.
    pub const fn new(bytes: &'a [u8]) -> Self {
        Self {
            bytes,
            unread: bytes,
            tickets: 0,
            broken: false,
        }
    }

    /// The byte at which the next record begins, or the one that is refused: how many bytes are read.
    pub const fn place(&self) -> usize {
        self.bytes.len() - self.unread.len()
    }

    /// The bytes from there on.
    pub const fn unread(&self) -> &'a [u8] {
        self.unread
    }
}

impl Iterator for Card<'_> {
    type Item = Result<Ticket, Broken>;

    fn next(&mut self) -> Option<Self::Item> {
        if self.broken || self.unread.is_empty() {
            return None;
        }
        Some(match read_ticket(self.unread) {
            Ok((ticket, unread)) => {
                self.unread = unread;
                self.tickets += 1;
                Ok(ticket)
            }
            Err(error) => {
                self.broken = true;
                Err(Broken {
                    tickets: self.tickets,
                    place: self.place(),
                    error,
                })
            }
        })
    }
}

impl FusedIterator for Card<'_> {}

/// Reads a card to its end without keeping a ticket: how many there are. An empty card has none.
///
/// # Errors
///
/// The first record that is refused, as [`Card`] tells it.
///
/// # Examples
///
/// ```
/// use peldozkar::check_card;
///
/// assert_eq!(check_card(&[]), Ok(0));
/// let broken = check_card(&[26, 0, 0, 0, 4]).unwrap_err();
/// assert_eq!((broken.tickets, broken.place, broken.error.number()), (0, 0, 12));
/// ```
pub fn check_card(source: &[u8]) -> Result<u64, Broken> {
    let raw::Card {
        tickets,
        place,
        report,
    } = raw::pel_check_card(source);
    report.counted().map_err(|error| Broken {
        tickets,
        place: place as usize,
        error,
    })
}

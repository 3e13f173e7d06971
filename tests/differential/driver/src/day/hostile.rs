//! The tickets of the long run: those of the comparison, most of them spoilt in some or in all of
//! their fields.

use crate::functions;
use crate::functions::inputs::Shape;
use crate::run::designers;
use crate::run::draw::{CAP, LARGEST_BETA, ODD, RANDOM_TAPS, SMALLEST, neighbour};
use crate::run::inputs;
use crate::run::random::Random;
use crate::run::tickets::{Channels, Cosine, Form, Kind, Pulse, Ticket};
use crate::spec;

/// The most bytes of a buffer that is drawn as a short one.
const SHORT: u64 = 40;

/// Numbers at which some answer changes its nature.
const LIMITS: [f64; 22] = [
    0.0,
    0.05,
    0.2,
    0.5,
    1.0,
    1.01,
    1.5,
    2.0,
    7.95,
    8.0,
    20.0,
    21.0,
    50.0,
    120.0,
    LARGEST_BETA,
    33_554_432.0,
    f64::MIN_POSITIVE,
    SMALLEST,
    f64::MAX,
    f64::MAX / 2.0,
    f64::MAX / std::f64::consts::PI,
    f64::INFINITY,
];

/// One field of a ticket.
enum Field<'a> {
    Number(&'a mut f64),
    Count(&'a mut u64),
    Code(&'a mut u64),
    /// The length of a buffer.
    Bytes(&'a mut u64),
}

/// The fields of a ticket that aren't elements of a source.
fn fields(ticket: &mut Ticket) -> Vec<Field<'_>> {
    use Field::{Bytes, Code, Count, Number};
    match ticket {
        Ticket::BesselI0 { x } | Ticket::Q15FromF64 { x } | Ticket::Q14FromF64 { x } => {
            vec![Number(x)]
        }
        Ticket::KaiserBeta { attenuation } => vec![Number(attenuation)],
        Ticket::Kaiserord {
            ripple,
            transition,
            rate,
        } => vec![Number(ripple), Number(transition), Number(rate)],
        Ticket::HalfbandLen {
            transition,
            attenuation,
            rate,
        } => vec![Number(transition), Number(attenuation), Number(rate)],
        Ticket::Delay { taps } => vec![Count(taps)],
        Ticket::LowpassNew { band, taps } => vec![
            Number(&mut band.cutoff),
            Number(&mut band.rate),
            Code(&mut band.window),
            Number(&mut band.beta),
            Count(taps),
        ],
        Ticket::Lowpass { band, bytes } => vec![
            Number(&mut band.cutoff),
            Number(&mut band.rate),
            Code(&mut band.window),
            Number(&mut band.beta),
            Bytes(bytes),
        ],
        Ticket::SpecNumTaps { spec }
        | Ticket::SpecLowpass { spec }
        | Ticket::SpecDesign { spec, .. } => vec![
            Number(&mut spec.cutoff),
            Number(&mut spec.transition),
            Number(&mut spec.attenuation),
            Number(&mut spec.rate),
            Count(&mut spec.max_taps),
        ],
        Ticket::HalfbandNew { beta, taps } => vec![Number(beta), Count(taps)],
        Ticket::Halfband { beta, bytes } => vec![Number(beta), Bytes(bytes)],
        Ticket::GaussianNew { pulse } | Ticket::Gaussian { pulse, .. } => vec![
            Number(&mut pulse.bt),
            Count(&mut pulse.samples),
            Count(&mut pulse.span),
        ],
        Ticket::ChannelizerTaps { channels }
        | Ticket::ChannelizerTapsPerBranch { channels }
        | Ticket::ChannelizerLowpass { channels, .. }
        | Ticket::ChannelizerPrototype { channels, .. } => vec![
            Count(&mut channels.channels),
            Number(&mut channels.passband),
            Number(&mut channels.stopband),
            Number(&mut channels.attenuation),
        ],
        Ticket::Q15Tap { tap } => vec![Number(tap)],
        Ticket::RrcLen { samples, span } => vec![Count(samples), Count(span)],
        Ticket::RrcNew { cosine } | Ticket::Rrc { cosine, .. } => vec![
            Number(&mut cosine.rolloff),
            Count(&mut cosine.samples),
            Count(&mut cosine.span),
        ],
        Ticket::BiquadCoefs { section, bytes } => vec![
            Code(&mut section.response),
            Number(&mut section.centre),
            Number(&mut section.q),
            Number(&mut section.rate),
            Bytes(bytes),
        ],
        Ticket::ButterworthSos { cascade, bytes } => vec![
            Code(&mut cascade.response),
            Count(&mut cascade.order),
            Number(&mut cascade.cutoff),
            Number(&mut cascade.rate),
            Bytes(bytes),
        ],
        Ticket::PreemphasisCoefs { tau, rate, bytes } => {
            vec![Number(tau), Number(rate), Bytes(bytes)]
        }
        Ticket::Window { window, bytes } => {
            let mut fields = vec![Code(&mut window.symmetry), Bytes(bytes)];
            if let Form::Kaiser { beta } = &mut window.form {
                fields.push(Number(beta));
            }
            fields
        }
        Ticket::ToQ15 { bytes, .. }
        | Ticket::ToQ14 { bytes, .. }
        | Ticket::ToF32 { bytes, .. }
        | Ticket::ToF32Sos { bytes, .. } => vec![Bytes(bytes)],
        Ticket::WindowGain { .. } => vec![],
    }
}

/// The fields that several kinds have behind a record.
fn fields_behind(ticket: &mut Ticket) -> Vec<Field<'_>> {
    match ticket {
        Ticket::SpecDesign { bytes, .. }
        | Ticket::Gaussian { bytes, .. }
        | Ticket::Rrc { bytes, .. } => vec![Field::Bytes(bytes)],
        Ticket::ChannelizerLowpass { branch, .. } => vec![Field::Count(branch)],
        Ticket::ChannelizerPrototype { branch, bytes, .. } => {
            vec![Field::Count(branch), Field::Bytes(bytes)]
        }
        _ => vec![],
    }
}

/// Any number, its exponent spread evenly, from the subnormals to infinities and NaNs.
fn even(random: &mut Random) -> f64 {
    f64::from_bits(random.below(4096) << 52 | random.fraction())
}

/// A spoilt number; `peer` is another one of the ticket.
fn number(x: f64, peer: f64, random: &mut Random) -> f64 {
    let step = random.between(-1, 1);
    match random.below(10) {
        0 | 1 => f64::from_bits(random.bits()),
        2 => neighbour(x, if step == 0 { 2 } else { step }),
        3 => neighbour(peer, step),
        4 => neighbour(peer / 2.0, step),
        5 => {
            let limit = LIMITS[random.below(LIMITS.len() as u64) as usize];
            random.sign(neighbour(limit, step))
        }
        6 => even(random),
        7 => f64::from_bits(x.to_bits() ^ 1 << random.below(64)),
        8 => random.sign(x * peer),
        _ => ODD[random.below(ODD.len() as u64) as usize],
    }
}

/// A spoilt count.
fn count(x: u64, random: &mut Random) -> u64 {
    let step = random.between(-3, 3) as u64;
    match random.below(8) {
        0 => random.bits(),
        1 | 2 => (1_u64 << random.below(64)).wrapping_add(step),
        3 => u64::MAX - random.below(8),
        4 => x.wrapping_add(step),
        5 => x | 1 << (24 + random.below(40)),
        6 => random.below(64),
        _ => random.bits() >> random.below(64),
    }
}

/// A spoilt length of a buffer: never a long one.
fn bytes(x: u64, random: &mut Random) -> u64 {
    match random.below(4) {
        0 => x.saturating_sub(1 + random.below(8)),
        1 => x + 1 + random.below(8),
        _ => random.below(SHORT + 1),
    }
}

/// Spoils the elements of a source; `any` makes one, `width` is its length in bytes.
fn elements<E: Copy>(
    elements: &mut Vec<E>,
    rest: &mut u64,
    width: u64,
    chance: u64,
    random: &mut Random,
    any: impl Fn(E, &mut Random) -> E,
) {
    if random.below(16) < chance {
        elements.truncate(random.below(SHORT / width + 1) as usize);
    }
    if random.below(32) < chance {
        *rest = random.below(width);
    }
    let whole = random.below(4) == 0;
    let often = random.below(64);
    for element in elements {
        if random.below(8) < chance && (whole || random.below(64) < often / 4) {
            *element = any(*element, random);
        }
    }
}

/// Spoils `chance` of 8 fields of a ticket, each on its own.
fn spoil(ticket: &mut Ticket, chance: u64, random: &mut Random) {
    let peers: Vec<f64> = fields(ticket)
        .iter()
        .filter_map(|field| match field {
            Field::Number(x) => Some(**x),
            _ => None,
        })
        .collect();
    let one = |field: Field, random: &mut Random| {
        if random.below(8) >= chance {
            return;
        }
        match field {
            Field::Number(x) => {
                let peer = peers[random.below(peers.len() as u64) as usize];
                *x = number(*x, peer, random);
            }
            Field::Count(x) => *x = count(*x, random),
            // Another code as a rule, so that what stands behind it shows.
            Field::Code(x) if random.below(4) > 0 => *x = random.below(4),
            Field::Code(x) => *x = count(*x, random),
            Field::Bytes(x) => *x = bytes(*x, random),
        }
    };
    for field in fields(ticket) {
        one(field, random);
    }
    for field in fields_behind(ticket) {
        one(field, random);
    }
    let width = match ticket {
        Ticket::ToQ15 { .. } | Ticket::ToQ14 { .. } => 2,
        _ => 4,
    };
    match ticket {
        Ticket::ToQ15 { source, bytes }
        | Ticket::ToQ14 { source, bytes }
        | Ticket::ToF32 { source, bytes }
        | Ticket::ToF32Sos { source, bytes } => {
            let any = |x: f64, random: &mut Random| number(x, x, random);
            elements(
                &mut source.elements,
                &mut source.rest,
                8,
                chance,
                random,
                any,
            );
            // The buffer fits the shorter source as often as not.
            if random.below(2) == 0 {
                *bytes = width * source.elements.len() as u64;
            }
        }
        Ticket::WindowGain { samples } => {
            let any = |x: f32, random: &mut Random| match random.below(3) {
                0 => f32::from_bits(x.to_bits() ^ 1 << random.below(32)),
                _ => f32::from_bits(random.bits() as u32),
            };
            elements(
                &mut samples.elements,
                &mut samples.rest,
                4,
                chance,
                random,
                any,
            );
        }
        _ => {}
    }
}

/// Whether that many taps would take too long, and not be refused for it.
fn is_long(taps: u64) -> bool {
    taps > RANDOM_TAPS && taps <= CAP + 8
}

/// Makes a pulse that would take long short.
fn shorten_pulse(pulse: &mut Pulse) {
    if (2..=8).contains(&pulse.span) && is_long(pulse.samples.saturating_mul(pulse.span)) {
        pulse.samples = 2 + pulse.samples % 64;
    }
}

fn shorten_cosine(cosine: &mut Cosine) {
    if cosine.span <= 32 && is_long(cosine.samples.saturating_mul(cosine.span)) {
        cosine.samples = 2 + cosine.samples % 64;
    }
}

fn shorten_channels(channels: &mut Channels, branch: u64) {
    if branch <= 64 && channels.channels <= 256 && channels.channels * branch > 512 {
        channels.channels = 4 + channels.channels % 8;
    }
}

/// Makes a ticket short that would take long; where its other numbers are refused it stays.
fn shorten(ticket: &mut Ticket) {
    match ticket {
        Ticket::LowpassNew { band, taps } if is_long(*taps) => {
            let one = Ticket::LowpassNew {
                band: *band,
                taps: 1,
            };
            if matches!(designers::rust(&one).report.number, 0 | 10) {
                *taps = 1 + *taps % 64;
            }
        }
        Ticket::HalfbandNew { beta, taps } if is_long(*taps) => {
            let three = Ticket::HalfbandNew {
                beta: *beta,
                taps: 3,
            };
            if matches!(designers::rust(&three).report.number, 0 | 10 | 16) {
                *taps %= 64;
            }
        }
        Ticket::SpecLowpass { spec } | Ticket::SpecDesign { spec, .. } => {
            *spec = spec::inputs::bounded(*spec);
        }
        Ticket::GaussianNew { pulse } | Ticket::Gaussian { pulse, .. } => shorten_pulse(pulse),
        Ticket::RrcNew { cosine } | Ticket::Rrc { cosine, .. } => shorten_cosine(cosine),
        Ticket::ChannelizerLowpass { channels, branch }
        | Ticket::ChannelizerPrototype {
            channels, branch, ..
        } => shorten_channels(channels, *branch),
        _ => {}
    }
}

/// A random ticket of a kind: one of the comparison's, in 5 of 8 cases spoilt, and its source lent
/// at any place.
pub fn draw(kind: Kind, telling: &[Ticket], random: &mut Random) -> Ticket {
    let told = random.below(8) == 0;
    let mut ticket = if told {
        telling[random.below(telling.len() as u64) as usize].clone()
    } else {
        inputs::draw(kind, random)
    };
    let chance = [0, 0, 0, 1, 2, 3, 5, 8][random.below(8) as usize];
    if chance > 0 {
        spoil(&mut ticket, chance, random);
    }
    if told || chance > 0 {
        shorten(&mut ticket);
    }
    match &mut ticket {
        Ticket::ToQ15 { source, .. }
        | Ticket::ToQ14 { source, .. }
        | Ticket::ToF32 { source, .. }
        | Ticket::ToF32Sos { source, .. } => source.shift = random.bits(),
        Ticket::WindowGain { samples } => samples.shift = random.bits(),
        _ => {}
    }
    ticket
}

/// A random argument of an elementary function: as often of any kind as one of the comparison's.
pub fn argument(shape: Shape, random: &mut Random) -> f64 {
    match random.below(4) {
        0 => f64::from_bits(random.bits()),
        1 => even(random),
        _ => functions::inputs::draw(shape, random),
    }
}

//! What the taps of an accepted ticket must add up to, by exact arithmetic, and a half-band's
//! mirror and zeros. Only the taps are looked at here, not where they came from.
//!
//! With T the taps as multiples of 2^-1074, n of them, and q the numbers that Q15 makes of them:
//!
//! - tap total: 2^52 · |sum T − 2^1074| is at most n · (2^1074 + sum |T|), if the divisor and all
//!   taps are finite;
//! - Q15 total: 2^37 · 2^1074 · |sum q − 32768| is at most n · (2^36 · 2^1074 + 2^1074 + sum |T|),
//!   if besides Q15 takes every tap and none saturates.

use crate::run::exact::{ONE, Whole};

/// Why the taps break a promise, or how much of its bounds they use.
#[derive(Clone, Copy, Debug, PartialEq)]
pub enum Verdict {
    Broken(&'static str),
    /// The divisor or a tap isn't finite.
    NotDue,
    /// The parts of the bound of the tap total and, where it is due, of the Q15 total.
    Kept(f64, Option<f64>),
}

/// How one of the totals stands to its bound.
fn part(left: &Whole, right: &Whole) -> Option<f64> {
    (left <= right).then(|| left.ratio(right))
}

/// The sum of the Q15 numbers, if every tap is taken and none saturates.
fn q15_sum(taps: &[f64], q15: impl Fn(f64) -> Option<i64>) -> Option<i64> {
    let mut sum = 0;
    for &tap in taps {
        let whole = (32768.0 * tap + 0.5).floor();
        if !(-32768.0..=32767.0).contains(&whole) {
            return None;
        }
        sum += q15(tap)?;
    }
    Some(sum)
}

/// Judges the taps; `q15` is the number that a tap is converted to, unless it is refused.
pub fn judge(divisor: f64, taps: &[f64], q15: impl Fn(f64) -> Option<i64>) -> Verdict {
    if !(divisor.is_finite() && taps.iter().all(|tap| tap.is_finite())) {
        return Verdict::NotDue;
    }
    let count = taps.len() as u64;
    let (mut above, mut below) = (Whole::ZERO, Whole::ZERO);
    for &tap in taps {
        if tap.is_sign_negative() {
            below.add_size(tap);
        } else {
            above.add_size(tap);
        }
    }
    let one = Whole::at(1, ONE);
    let sizes = one.plus(&above).plus(&below);
    let off = above.distance(&below.plus(&one));
    let Some(total) = part(&off.times(1 << 52), &sizes.times(count)) else {
        return Verdict::Broken("the tap total");
    };
    let Some(sum) = q15_sum(taps, q15) else {
        return Verdict::Kept(total, None);
    };
    let off = Whole::at((sum - 32768).unsigned_abs(), ONE + 37);
    let most = sizes.plus(&Whole::at(1, ONE + 36)).times(count);
    match part(&off, &most) {
        None => Verdict::Broken("the Q15 total"),
        whole => Verdict::Kept(total, whole),
    }
}

/// What a half-band's taps break, if anything: they are mirror images to the bit, and zeros of
/// either sign at even distances from the middle.
pub fn halfband_broken(taps: &[f64]) -> Option<&'static str> {
    let last = taps.len() - 1;
    let middle = last / 2;
    let mirrored = (0..=last).all(|i| taps[i].to_bits() == taps[last - i].to_bits());
    let zeros = (0..=last)
        .filter(|&i| i != middle && i.abs_diff(middle).is_multiple_of(2))
        .all(|i| taps[i] == 0.0);
    if !mirrored {
        Some("the mirror")
    } else if !zeros {
        Some("the zeros")
    } else {
        None
    }
}

/// The most of a bound that a ticket used, and on how many tickets it was checked.
#[derive(Clone, Copy, Default)]
struct Worst {
    tickets: u64,
    part: f64,
    taps: usize,
}

impl Worst {
    fn add(&mut self, other: Self) {
        self.tickets += other.tickets;
        if other.part > self.part {
            (self.part, self.taps) = (other.part, other.taps);
        }
    }

    fn words(&self) -> [u64; 3] {
        [self.tickets, self.part.to_bits(), self.taps as u64]
    }

    fn of_words(words: &[u64]) -> Self {
        Self {
            tickets: words[0],
            part: f64::from_bits(words[1]),
            taps: words[2] as usize,
        }
    }

    fn print(&self, name: &str, what: &str) {
        println!(
            "{name}: {what} on {} tickets, at most {:.11} of its bound ({} taps)",
            self.tickets, self.part, self.taps
        );
    }
}

/// What the checks of one kind have found so far.
#[derive(Clone, Copy, Default)]
pub struct Totals {
    pub broken: u64,
    not_due: u64,
    tap: Worst,
    q15: Worst,
    halfbands: u64,
    /// The smallest and the largest divisor.
    divisors: Option<(f64, f64)>,
}

impl Totals {
    /// Checks the taps of one accepted ticket; what they break, if anything.
    pub fn check(
        &mut self,
        halfband: bool,
        divisor: f64,
        taps: &[f64],
        q15: impl Fn(f64) -> Option<i64>,
    ) -> Option<&'static str> {
        let one = |part| Worst {
            tickets: 1,
            part,
            taps: taps.len(),
        };
        self.widen((divisor, divisor));
        let mut broken = None;
        if halfband {
            self.halfbands += 1;
            broken = halfband_broken(taps);
        }
        match judge(divisor, taps, q15) {
            Verdict::Broken(what) => broken = Some(what),
            Verdict::NotDue => self.not_due += 1,
            Verdict::Kept(tap, q15) => {
                self.tap.add(one(tap));
                q15.into_iter().for_each(|part| self.q15.add(one(part)));
            }
        }
        self.broken += u64::from(broken.is_some());
        broken
    }

    fn widen(&mut self, (low, high): (f64, f64)) {
        let (smallest, largest) = self.divisors.unwrap_or((low, high));
        self.divisors = Some((smallest.min(low), largest.max(high)));
    }

    pub fn add(&mut self, other: &Self) {
        other.divisors.into_iter().for_each(|both| self.widen(both));
        self.broken += other.broken;
        self.not_due += other.not_due;
        self.tap.add(other.tap);
        self.q15.add(other.q15);
        self.halfbands += other.halfbands;
    }

    /// All that was found, as words that [`Totals::of_words`] takes back.
    pub fn words(&self) -> [u64; Self::WORDS] {
        let [tap, tap_part, tap_taps] = self.tap.words();
        let [q15, q15_part, q15_taps] = self.q15.words();
        let (low, high) = self.divisors.unwrap_or_default();
        [
            self.broken,
            self.not_due,
            tap,
            tap_part,
            tap_taps,
            q15,
            q15_part,
            q15_taps,
            self.halfbands,
            u64::from(self.divisors.is_some()),
            low.to_bits(),
            high.to_bits(),
        ]
    }

    pub const WORDS: usize = 12;

    pub fn of_words(words: &[u64; Self::WORDS]) -> Self {
        let both = (f64::from_bits(words[10]), f64::from_bits(words[11]));
        Self {
            broken: words[0],
            not_due: words[1],
            tap: Worst::of_words(&words[2..5]),
            q15: Worst::of_words(&words[5..8]),
            halfbands: words[8],
            divisors: (words[9] == 1).then_some(both),
        }
    }

    pub fn print(&self, name: &str) {
        self.tap.print(name, "tap total");
        self.q15.print(name, "Q15 total");
        if self.halfbands > 0 {
            println!("{name}: mirror and zeros on {} tickets", self.halfbands);
        }
        if let Some((smallest, largest)) = self.divisors {
            println!("{name}: divisors from {smallest:?} to {largest:?}");
        }
        if self.not_due > 0 {
            println!("{name}: {} tickets aren't finite", self.not_due);
        }
        if self.broken > 0 {
            println!("{name}: {} tickets break a total", self.broken);
        }
    }

    /// Whether nothing was broken and each check was made.
    pub fn kept(&self) -> bool {
        self.broken == 0 && self.tap.tickets > 0 && self.q15.tickets > 0
    }
}

/// Asks the checks about lists that keep or break a promise by as little as can be; how many
/// answers were right, and of how many.
pub fn run_faults() -> (usize, usize) {
    let whole = |tap: f64| Some((32768.0 * tap + 0.5).floor() as i64);
    let off_by = |steps: i64| {
        let more = f64::from_bits((0.5_f64.to_bits() as i64 + steps) as u64);
        matches!(judge(1.0, &[0.5, more], whole), Verdict::Kept(..))
    };
    let large = |ulps: f64| {
        let last = -1.5 + ulps * f64::EPSILON;
        matches!(
            judge(1.0, &[2.0, 2.0, -1.5, last], whole),
            Verdict::Kept(..)
        )
    };
    let sum = |more: i64| {
        let counted = |tap: f64| whole(tap).map(|q| if tap > 0.4 { q + more } else { q });
        judge(1.0, &[0.75, 0.25], counted)
    };
    let smallest = f64::from_bits(1);
    let half = [-0.25, 0.0, 0.25, 1.0, 0.25, 0.0, -0.25];
    let with = |place: usize, tap: f64| {
        let mut taps = half;
        taps[place] = tap;
        halfband_broken(&taps)
    };
    let answers = [
        // Two taps of total 1 and of sizes 1: the bound is 4 ulps of 1, and hardly more for larger
        // taps. The ulps of 0.5 are half as long above it, and half of that below.
        off_by(8),
        !off_by(9),
        off_by(-15),
        !off_by(-16),
        // Four taps of total 1 and of sizes 7: the bound is 32 ulps of 1.
        large(-32.0),
        !large(-33.0),
        large(31.0),
        !large(32.0),
        // A total that no f64 beside 1 can tell: 2^52 is 2^-1024 of 2^1076.
        judge(1.0, &[1.0, smallest], whole) == Verdict::Kept(f64::from_bits(1 << 50), None),
        judge(1.0, &[0.5, 0.5, f64::NAN], whole) == Verdict::NotDue,
        judge(f64::INFINITY, &[0.5, 0.5], whole) == Verdict::NotDue,
        judge(1.0, &[0.5], whole) == Verdict::Broken("the tap total"),
        judge(1.0, &[-0.5, 0.5, 0.5], whole) == Verdict::Broken("the tap total"),
        // Two taps: the Q15 total may be off by 1 and hardly more.
        matches!(sum(0), Verdict::Kept(_, Some(0.0))),
        matches!(sum(1), Verdict::Kept(_, Some(part)) if part > 0.999_999),
        matches!(sum(-1), Verdict::Kept(_, Some(part)) if part > 0.999_999),
        sum(2) == Verdict::Broken("the Q15 total"),
        sum(-2) == Verdict::Broken("the Q15 total"),
        // One tap of 1 saturates, and a tap may be refused.
        matches!(judge(1.0, &[1.0], whole), Verdict::Kept(_, None)),
        matches!(judge(1.0, &[0.5, 0.5], |_| None), Verdict::Kept(_, None)),
        with(1, -0.0) == Some("the mirror"),
        with(0, 0.25) == Some("the mirror"),
        with(6, f64::from_bits((-0.25_f64).to_bits() + 1)) == Some("the mirror"),
        with(3, 0.5).is_none(),
        halfband_broken(&[0.0, smallest, 0.0, 1.0, 0.0, smallest, 0.0]) == Some("the zeros"),
        halfband_broken(&half).is_none(),
    ];
    let right = answers.iter().filter(|&&answer| answer).count();
    for (i, _) in answers.iter().enumerate().filter(|(_, answer)| !**answer) {
        println!("  not noticed: the checks of the totals, list {}", i + 1);
    }
    (right, answers.len())
}

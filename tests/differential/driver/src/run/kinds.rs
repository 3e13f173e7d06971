//! What a run has to know of each kind of tickets: its name, its share, and what it must meet.

use crate::run::cases::Case;
use crate::run::tickets::Kind;
use crate::{
    channelizer, formats, gaussian, halfband, kaiser, lowpass, rrc, sections, spec, windows,
};

/// What a run has to know of a kind.
pub struct About {
    pub kind: Kind,
    pub name: &'static str,
    /// The number that names it in the list.
    pub number: u8,
    /// How many of [`SHARES`] tickets are of this kind.
    pub share: u64,
    /// Every refusal that the kind can give: its number and what it carries.
    pub refusals: &'static [(u32, u32)],
    /// Whether it gives taps whose totals are promised.
    pub totals: bool,
    pub cases: &'static [Case],
}

/// All kinds by the order of their numbers, in rows.
const ROWS: [&[About]; 13] = [
    kaiser::kinds::KINDS,
    lowpass::kinds::KINDS,
    spec::kinds::KINDS,
    halfband::kinds::KINDS,
    gaussian::kinds::KINDS,
    channelizer::kinds::KINDS,
    formats::q15::kinds::KINDS,
    rrc::kinds::KINDS,
    sections::kinds::KINDS,
    formats::q14::kinds::KINDS,
    formats::singles::kinds::KINDS,
    windows::kinds::KINDS,
    windows::gain::kinds::KINDS,
];

/// All kinds by the order of their numbers.
pub fn kinds() -> impl Iterator<Item = &'static About> {
    ROWS.into_iter().flatten()
}

/// The sum of all kinds' shares.
pub const SHARES: u64 = {
    let mut sum = 0;
    let mut row = 0;
    while row < ROWS.len() {
        let mut i = 0;
        while i < ROWS[row].len() {
            sum += ROWS[row][i].share;
            i += 1;
        }
        row += 1;
    }
    sum
};

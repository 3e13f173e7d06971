//! A buffer that is lent: full of random bytes, between guards and at any alignment.

use crate::run::random::Random;

/// The bytes before and after a lent buffer, which nobody may write.
const GUARD: usize = 16;

pub struct Lent {
    bytes: Vec<u8>,
    start: usize,
    end: usize,
    seed: u64,
}

impl Lent {
    pub fn new(length: u64, seed: u64) -> Self {
        let start = GUARD + (seed % 8) as usize;
        let end = start + length as usize;
        let mut bytes = vec![0; (end + GUARD).next_multiple_of(8)];
        let mut random = Random::new(seed);
        for word in bytes.chunks_exact_mut(8) {
            word.copy_from_slice(&random.bits().to_le_bytes());
        }
        Self {
            bytes,
            start,
            end,
            seed,
        }
    }

    pub fn part(&mut self) -> &mut [u8] {
        &mut self.bytes[self.start..self.end]
    }

    /// Whether all bytes but those from `start` to before `end` are as they came.
    fn as_they_came(&self, start: usize, end: usize) -> bool {
        let mut random = Random::new(self.seed);
        self.bytes
            .as_chunks::<8>()
            .0
            .iter()
            .enumerate()
            .all(|(i, word)| {
                let came = random.bits().to_le_bytes();
                // A word at a time, but where the part begins or ends within one.
                if 8 * i >= start && 8 * i + 8 <= end {
                    true
                } else if 8 * i + 8 <= start || 8 * i >= end {
                    *word == came
                } else {
                    (0..8).all(|j| (start..end).contains(&(8 * i + j)) || word[j] == came[j])
                }
            })
    }

    /// Whether the buffer begins with the elements, each the same as its bytes, and its other bytes
    /// and the guards are as they came.
    pub fn begins<const WIDTH: usize, E>(
        &self,
        elements: impl ExactSizeIterator<Item = E>,
        same: impl Fn([u8; WIDTH], E) -> bool,
    ) -> bool {
        let end = self.start + WIDTH * elements.len();
        end <= self.end
            && self.as_they_came(self.start, end)
            && self.bytes[self.start..end]
                .as_chunks()
                .0
                .iter()
                .zip(elements)
                .all(|(bytes, element)| same(*bytes, element))
    }
}

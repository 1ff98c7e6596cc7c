//! What the samples that the proved programs replay have in common.

use crate::random::Random;
use crate::refusal::Refusal;
use oxideav_core::Segment;
use std::fmt::Write;

/// How long a tape with a letter too many may be.
const FULL: usize = 4200;

/// How many entries there are. Each has random numbers of its own.
pub struct Sample {
    pub seed: u64,
    pub entries: u64,
    /// Of so many entries the last is refused.
    pub apart: u64,
}

/// The segments that the original is given, or the refusal.
pub type Due = Result<Vec<Segment>, Refusal>;

impl Sample {
    /// The entries, each made of its random numbers, its number and, where it is to be refused, how
    /// many are before it that are.
    pub fn all<E>(
        self,
        make: impl Fn(&mut Random, u64, Option<u64>) -> E,
    ) -> impl Iterator<Item = E> {
        (0..self.entries).map(move |number| {
            let last = number % self.apart == self.apart - 1;
            let refused = last.then_some(number / self.apart);
            make(&mut Random::new(self.seed, number), number, refused)
        })
    }
}

/// How long a tape that is refused with this number may be, where other tapes are so short.
pub fn most(number: u32, short: usize) -> usize {
    if number == 6 { FULL } else { short }
}

/// Writes the line of an entry, or of a call: what is counted and the digest of it, or the refusal.
pub fn answer(text: &mut String, due: Result<(usize, u32), Refusal>) {
    let _ = match due {
        Ok((count, digest)) => writeln!(text, "{count} {digest:08x}"),
        Err(Refusal { number, place }) => writeln!(text, "refused {number} {place}"),
    };
}

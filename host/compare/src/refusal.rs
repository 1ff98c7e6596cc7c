//! What a call that reads a tape answers where it does not read it.

use std::collections::BTreeMap;
use std::fmt::{self, Display, Formatter};

#[derive(Clone, Copy, Debug, PartialEq)]
pub struct Refusal {
    pub number: u32,
    pub place: usize,
}

/// The count, or the refusal, that the two halves of a proved function's answer hold.
pub fn halves(answer: u64) -> Result<usize, Refusal> {
    let low = answer as u32 as usize;
    match (answer >> 32) as u32 {
        0 => Ok(low),
        number => Err(Refusal { number, place: low }),
    }
}

/// A refusal that has no place.
pub fn plain<T>(number: u32) -> Result<T, Refusal> {
    Err(Refusal { number, place: 0 })
}

/// How many outcomes were admitted, and how many refused with each number.
#[derive(Default)]
pub struct Tally {
    admitted: u64,
    refused: BTreeMap<u32, u64>,
}

impl Tally {
    pub fn add<T>(&mut self, outcome: &Result<T, Refusal>) {
        match outcome {
            Ok(_) => self.admitted += 1,
            Err(Refusal { number, .. }) => *self.refused.entry(*number).or_insert(0) += 1,
        }
    }
}

impl Display for Tally {
    fn fmt(&self, to: &mut Formatter) -> fmt::Result {
        let Tally { admitted, refused } = self;
        write!(to, "{admitted} admitted, refused by number {refused:?}")
    }
}

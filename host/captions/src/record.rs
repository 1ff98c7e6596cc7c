//! How far a job is, as a station stores it.

use crate::raw;
use crate::stripes::{self, PLACES, Stripes};

/// The bytes of a record: 129 numbers of four.
pub const RECORD_BYTES: usize = 4 * (1 + 2 * PLACES);

/// The bytes of a record that was stored while stripes had one height: 65 numbers of four.
pub const OLD_RECORD_BYTES: usize = 4 * (1 + PLACES);

/// How far a job is: how many stripes it has, the end of each, and the strokes that were done on
/// each, from the top. The entries of `ends` from the count on are not read, and Open leaves zeros
/// there; the counters from the count on are 0.
///
/// It is a plain value, which may come from anywhere: [`Job::resume`](crate::Job::resume) refuses
/// one that no job can have.
#[derive(Clone, Copy, Debug, PartialEq, Eq)]
#[repr(C)] // as the library reads and writes it
pub struct Record {
    pub count: u32,
    pub ends: [u32; PLACES],
    pub counters: [u32; PLACES],
}

impl Record {
    /// The record of zeros, which a refused Open gives.
    pub const ZEROS: Record = Record {
        count: 0,
        ends: [0; PLACES],
        counters: [0; PLACES],
    };

    /// The record of a job in these stripes that has done nothing.
    pub fn new(stripes: &Stripes) -> Record {
        let raw::Stripes { count, ends } = *stripes.raw();
        Record {
            count,
            ends,
            ..Record::ZEROS
        }
    }

    /// The record as bytes, on every machine the same: the count, the ends and then the counters,
    /// each number in four bytes, high byte first.
    pub fn to_bytes(&self) -> [u8; RECORD_BYTES] {
        let mut bytes = [0; RECORD_BYTES];
        let (places, _) = bytes.as_chunks_mut::<4>();
        let numbers = [self.count].into_iter().chain(self.ends);
        for (place, number) in places.iter_mut().zip(numbers.chain(self.counters)) {
            *place = number.to_be_bytes();
        }
        bytes
    }

    /// The record that [`Record::to_bytes`] wrote. Any bytes are one.
    pub fn from_bytes(bytes: &[u8; RECORD_BYTES]) -> Record {
        let mut next = numbers(bytes);
        Record {
            count: next(),
            ends: std::array::from_fn(|_| next()),
            counters: std::array::from_fn(|_| next()),
        }
    }

    /// The record that was stored while stripes had one height: that height stood first, and then the
    /// counters, which stay. The ends depend on the picture's height too.
    pub fn from_old_bytes(bytes: &[u8; OLD_RECORD_BYTES], height: u32) -> Record {
        let mut next = numbers(bytes);
        let raw::Stripes { count, ends } = raw::Stripes::of_height(height, next());
        Record {
            count,
            ends,
            counters: std::array::from_fn(|_| next()),
        }
    }

    /// The ends of its stripes; none where the count is over [`STRIPES_MAX`](crate::STRIPES_MAX).
    pub(crate) fn used_ends(&self) -> &[u32] {
        stripes::used(self.count, &self.ends).unwrap_or_default()
    }
}

/// What gives the numbers that bytes hold, one after the other.
fn numbers(bytes: &[u8]) -> impl FnMut() -> u32 {
    let (words, _) = bytes.as_chunks::<4>();
    let mut numbers = words.iter().map(|word| u32::from_be_bytes(*word));
    move || numbers.next().unwrap_or_default()
}

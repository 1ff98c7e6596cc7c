//! The stripes of a picture, as document 02's S-4 has them: what is handed to Open, and what a record
//! holds of it.

pub use captions::raw::{Record, Stripes};

/// How many stripes a picture has at most.
pub const STRIPES: usize = 64;

/// The record of a refused Open.
pub const ZEROS: Record = Record {
    count: 0,
    ends: [0; STRIPES],
    counters: [0; STRIPES],
};

pub trait Ends {
    /// The count, and the entries.
    fn handed(&self) -> (u32, &[u32; STRIPES]);

    /// The ends: the first entries, as many as are counted, or `None` where there are not so many.
    fn used(&self) -> Option<&[u32]> {
        let (count, entries) = self.handed();
        entries.get(..count as usize)
    }

    /// How many stripes are counted, of the 64 that there may be.
    fn stripes(&self) -> usize {
        (self.handed().0 as usize).min(STRIPES)
    }

    /// Whether the ends rise strictly from a first one above 0, and the last is the height; a picture
    /// of height 0 has none.
    fn keep_rule(&self, height: u32) -> bool {
        match self.used() {
            None => false,
            Some([]) => height == 0,
            Some(ends @ [first, ..]) => {
                *first > 0
                    && ends.is_sorted_by(|end, next| end < next)
                    && ends.last() == Some(&height)
            }
        }
    }

    /// The stripe that a row is in: the first whose end is past it.
    fn stripe_of(&self, row: u32) -> Option<usize> {
        self.used()?.iter().position(|&end| row < end)
    }

    /// How many rows each stripe has, where the ends keep the rule.
    fn heights(&self) -> Vec<u32> {
        let ends = self.used().unwrap_or_default();
        let starts = [0].iter().chain(ends);
        ends.iter()
            .zip(starts)
            .map(|(end, start)| end - start)
            .collect()
    }
}

impl Ends for Stripes {
    fn handed(&self) -> (u32, &[u32; STRIPES]) {
        (self.count, &self.ends)
    }
}

impl Ends for Record {
    fn handed(&self) -> (u32, &[u32; STRIPES]) {
        (self.count, &self.ends)
    }
}

/// Stripes with these ends, as many as have a place, and 0 in the other entries.
pub fn ending(ends: &[u32]) -> Stripes {
    let mut entries = [0; STRIPES];
    for (entry, end) in entries.iter_mut().zip(ends) {
        *entry = *end;
    }
    Stripes {
        count: ends.len() as u32,
        ends: entries,
    }
}

/// Stripes of one height, as old stations send them; the last may be shorter. Where they are too many,
/// so is the count, and of stripes without rows one is made, which ends at row 0: both break the rule.
pub fn equal(height: u32, stripe_height: u32) -> Stripes {
    let (rows, tall) = (u64::from(height), u64::from(stripe_height));
    if tall == 0 {
        return ending(&[0]);
    }
    // The first row of each stripe that has a place.
    let firsts = (0..STRIPES as u64).map(|stripe| stripe * tall);
    let ends: Vec<u32> = firsts
        .take_while(|first| *first < rows)
        .map(|first| rows.min(first + tall) as u32)
        .collect();
    Stripes {
        count: rows.div_ceil(tall) as u32,
        ..ending(&ends)
    }
}

/// The entries that a count leaves unused.
pub fn unused(count: u32, entries: &mut [u32; STRIPES]) -> &mut [u32] {
    &mut entries[STRIPES.min(count as usize)..]
}

/// The record that Open gives of these stripes.
pub fn opened(stripes: &Stripes) -> Record {
    let Stripes { count, ends } = ending(stripes.used().unwrap_or_default());
    Record {
        count,
        ends,
        ..ZEROS
    }
}

/// Whether no counter is over so many strokes, and none past the last stripe is other than 0.
pub fn is_sound(record: &Record, strokes: usize) -> bool {
    let (there, past) = record.counters.split_at(record.stripes());
    there.iter().all(|&counter| counter as usize <= strokes) && past.iter().all(|&c| c == 0)
}

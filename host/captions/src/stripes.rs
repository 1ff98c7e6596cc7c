//! How a picture is cut into stripes.

use crate::raw;
use crate::refusal::{Cause, Refusal, Result};
use std::iter;
use std::ops::Range;

/// The most stripes of a picture.
pub const STRIPES_MAX: u32 = 64;

pub(crate) const PLACES: usize = STRIPES_MAX as usize;

const UNFIT: Refusal = Refusal {
    cause: Cause::StripesUnfit,
    place: 0,
};

/// A picture's stripes, from the top, of any heights. A stripe has the rows from the end of the one
/// before it, or from row 0, up to its own end, which is the first row below it. So the ends rise,
/// and the last is the picture's height; a picture without rows has no stripe.
///
/// ```
/// use captions::Stripes;
///
/// let low = Stripes::new(360, &[300, 340, 360])?; // thin ones where the letters are
/// assert_eq!((low.count(), low.rows(1)), (3, Some(300..340)));
/// assert_eq!(Stripes::of_height(360, 150)?.ends(), [150, 300, 360]);
/// # Ok::<(), captions::Refusal>(())
/// ```
#[derive(Clone, Copy, Debug, PartialEq, Eq)]
pub struct Stripes(raw::Stripes);

impl Stripes {
    /// The stripes with these ends, of a picture so high. Refused, as Open refuses them, are more
    /// than [`STRIPES_MAX`], and ends that do not rise from above 0 to the height.
    pub fn new(height: u32, ends: &[u32]) -> Result<Stripes> {
        let mut places = [0; PLACES];
        let used = places.get_mut(..ends.len()).ok_or(UNFIT)?;
        used.copy_from_slice(ends);
        if !rise_to(height, ends) {
            return Err(UNFIT);
        }
        Ok(Stripes(raw::Stripes {
            count: ends.len() as u32,
            ends: places,
        }))
    }

    /// The stripes of one height, of which the last may be lower. Refused are a stripe height of 0,
    /// and one that makes more than [`STRIPES_MAX`].
    pub fn of_height(height: u32, stripe_height: u32) -> Result<Stripes> {
        let made = raw::Stripes::of_height(height, stripe_height);
        Stripes::new(height, used(made.count, &made.ends).ok_or(UNFIT)?)
    }

    pub fn count(&self) -> u32 {
        self.0.count
    }

    pub fn ends(&self) -> &[u32] {
        used(self.0.count, &self.0.ends).unwrap_or_default()
    }

    /// The rows of a stripe; none where the picture does not have it.
    pub fn rows(&self, stripe: u32) -> Option<Range<u32>> {
        rows(self.ends(), stripe)
    }

    /// The stripes as the library takes them.
    pub(crate) fn raw(&self) -> &raw::Stripes {
        &self.0
    }
}

/// The entries that a count uses; none where there are fewer.
pub(crate) fn used(count: u32, ends: &[u32; PLACES]) -> Option<&[u32]> {
    ends.get(..count as usize)
}

/// The rows of a stripe of those with these ends.
pub(crate) fn rows(ends: &[u32], stripe: u32) -> Option<Range<u32>> {
    let mut pairs = starts(ends).zip(ends);
    let (start, end) = pairs.nth(stripe as usize)?;
    Some(start..*end)
}

/// The first row of each stripe, and then the end of the last.
fn starts(ends: &[u32]) -> impl Iterator<Item = u32> {
    iter::once(0).chain(ends.iter().copied())
}

fn rise_to(height: u32, ends: &[u32]) -> bool {
    let mut pairs = starts(ends).zip(ends);
    pairs.all(|(start, end)| start < *end) && starts(ends).last() == Some(height)
}

//! House settings (document 02, S-10): frames and jobs at other numbers than the original's, held to the
//! original's text with its numbers changed, and that text held to the original's own.

pub mod generate;
mod kinds;
mod limits;
mod product;
mod random;
mod unchanged;

use crate::count::Count;
use reference::Original;

/// All comparisons at other numbers, with this many random frames of Draw, and a tenth as many cases of
/// each other kind.
pub fn compare(original: &Original, seed: u64, frames: u64) -> Vec<Count> {
    let tenth = frames / 10;
    vec![
        unchanged::compare(original, seed, tenth),
        product::frames(original),
        product::jobs(original),
        limits::compare(original),
        random::frames(original, seed, frames),
        random::jobs(original, seed, tenth),
        random::records(original, seed, tenth),
    ]
}

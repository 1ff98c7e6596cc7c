//! The font: every glyph row by row, and pictures byte by byte.

mod generate;
mod glyphs;
pub mod picture;
mod proved;
mod refusals;
mod rows;
mod specimen;
pub mod strokes;

use crate::count::Count;
use reference::Original;

pub use specimen::specimen;

/// All comparisons of the font, with this many random pictures.
pub fn compare(original: &Original, seed: u64, pictures: u64) -> Vec<Count> {
    let mut counts = glyphs::compare(original);
    counts.push(strokes::every_glyph(original));
    counts.push(strokes::every_alpha(original));
    counts.push(rows::compare(original));
    counts.push(strokes::limits(original));
    counts.push(refusals::compare(seed));
    counts.push(strokes::random(original, seed, pictures));
    counts
}

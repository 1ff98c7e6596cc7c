//! The original: `font.rs` and `compositor.rs` of oxideav-subtitle, compiled as they are, with what the
//! comparison asks of their private parts behind them, and the draw loop once more with a counter; and
//! all of `compositor.rs` once more, with three of its numbers read from the settings.
//!
//! `build.rs` looks for the two files. Where they are missing the crate still builds, [`original`]
//! answers `None`, and nothing of them is imitated.

#[cfg(original)]
include!(concat!(env!("OUT_DIR"), "/original.rs"));

#[cfg(original)]
mod at_hand;
#[cfg(original)]
pub use at_hand::Original;

#[cfg(not(original))]
mod missing;
#[cfg(not(original))]
pub use missing::Original;

pub mod replaced;
pub mod settings;

/// The folder where the build looked for them.
pub const LOOKED_IN: &str = env!("ORIGINAL_LOOKED_IN");

/// The original, where it is at hand. A caller asks once and handles `None` once.
pub fn original() -> Option<Original> {
    Original::find(false)
}

/// The original with its changed text in the other's place at all numbers, to hold the two together.
pub fn changed() -> Option<Original> {
    Original::find(true)
}

/// A letter drawn once, in which glyph mode, and where: the rest is as the original's font is told.
#[derive(Clone, Copy, Debug)]
pub struct Stroke {
    pub mode: u32,
    pub ch: char,
    pub bold: bool,
    /// In eighths of a cell; the original's italic has two.
    pub slant: u32,
    pub color: [u8; 4],
    pub x: i32,
    pub y: i32,
}

/// A run of letters in one style, as the original flattens segments to.
#[derive(Clone, Debug, PartialEq)]
pub struct Run {
    pub text: String,
    pub bold: bool,
    pub italic: bool,
    pub color: [u8; 4],
}

/// A line, as the original wraps runs to.
#[derive(Clone, Debug, PartialEq)]
pub struct Line {
    pub pieces: Vec<Run>,
    pub columns: usize,
}

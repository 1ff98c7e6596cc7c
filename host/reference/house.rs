//! The original's compositor with the numbers that document 02's S-10 makes settings, made of the
//! original's own text as it is built.

use crate::changes::{Change, changed};

/// A field for the numbers, which whoever draws sets; and each place that reads one of them.
const CHANGES: [Change; 6] = [
    (
        "pub outline_px: u32,",
        1,
        "pub outline_px: u32, pub house: crate::settings::House,",
    ),
    (
        "outline_px: 1,",
        1,
        "outline_px: 1, house: crate::settings::House::ORIGINAL,",
    ),
    (
        "TextAlign::Left | TextAlign::Start => 8,",
        1,
        "TextAlign::Left | TextAlign::Start => self.house.side_margin as i32,",
    ),
    (
        "- line_width_px - 8,",
        1,
        "- line_width_px - self.house.side_margin as i32,",
    ),
    (
        "self.outline_px.min(2)",
        1,
        "self.outline_px.min(self.house.outline_cap)",
    ),
    (
        "font.cell_w as f32 / 4.0",
        1,
        "font.cell_w as f32 * self.house.slant as f32 / 8.0",
    ),
];

/// The compositor's text with its numbers read from the settings, or what was not found in it.
pub fn text(text: &str) -> Result<String, String> {
    changed(text, &CHANGES)
}

//! The settings of documents 01 and 02, what these say of them, and where the original finds each. They
//! are plain numbers, taken neither from the original nor from the proved library.

use oxideav_core::{Positioning, TextAlign};
use std::ops::Range;

/// The most pixels of a side.
pub const SIDE_MAX: u32 = 4096;
/// The most pixels from one line to the next.
pub const LINE_HEIGHT_MAX: u32 = 1024;
/// The alignments, 0 center, 1 left, 2 start, 3 right, 4 end.
pub const ALIGNMENTS: [u32; 5] = [0, 1, 2, 3, 4];
/// The glyph modes: 1 replaces some letters, 0 none.
pub const GLYPH_MODES: [u32; 2] = [0, 1];
/// The widest side margin.
pub const SIDE_MARGIN_MAX: u32 = 255;
/// The strongest slant, in eighths of a cell.
pub const SLANT_MAX: u32 = 8;
/// The highest cap of the outline.
pub const OUTLINE_CAP_MAX: u32 = 4;
/// The columns of a cell.
const CELL_WIDTH: u32 = 8;

/// The house settings of document 02's S-10. In the original they are fixed.
#[derive(Clone, Copy, Debug, PartialEq)]
pub struct House {
    pub side_margin: u32,
    pub slant: u32,
    pub outline_cap: u32,
}

impl House {
    /// The numbers that the original has.
    pub const ORIGINAL: House = House {
        side_margin: 8,
        slant: 2,
        outline_cap: 2,
    };
}

/// The original's compositor is told all but the alignment, which the cue says, the glyph mode, for
/// which the cue's letters are replaced, and the house settings, which its text is changed for.
#[derive(Clone, Copy, Debug)]
pub struct Settings {
    pub width: u32,
    pub height: u32,
    pub default_color: [u8; 4],
    pub outline_color: [u8; 4],
    pub line_height: u32,
    pub bottom_margin: u32,
    pub outline: u32,
    pub alignment: u32,
    pub glyph_mode: u32,
    pub house: House,
}

impl Settings {
    /// The bytes of the picture, or as many as can be counted.
    pub fn area(&self) -> usize {
        (self.width as usize)
            .saturating_mul(self.height as usize)
            .saturating_mul(4)
    }

    /// The bytes of some of the picture's rows.
    pub fn bytes(&self, rows: &Range<usize>) -> Range<usize> {
        let row = 4 * self.width as usize;
        rows.start * row..rows.end * row
    }

    /// The column limit of its lines.
    pub fn limit(&self) -> usize {
        (self.width / CELL_WIDTH).max(1) as usize
    }

    /// The strokes of one letter that has ink.
    pub fn strokes(&self) -> usize {
        1 + 8 * self.outline.min(self.house.outline_cap) as usize
    }

    /// What a cue says so that the original aligns its lines so: center is said, or left unsaid.
    pub fn positioning(&self, unsaid: bool) -> Option<Positioning> {
        let align = match self.alignment {
            0 if unsaid => return None,
            1 => TextAlign::Left,
            2 => TextAlign::Start,
            3 => TextAlign::Right,
            4 => TextAlign::End,
            _ => TextAlign::Center,
        };
        Some(Positioning { align })
    }
}

//! How a cue is drawn.

use crate::raw;

/// The most pixels of a picture's width, and of its height.
pub const SIDE_MAX: u32 = 4_096;
/// The most pixels from one line to the next.
pub const LINE_HEIGHT_MAX: u32 = 1_024;
/// The most pixels between a line and the side that it is aligned to.
pub const SIDE_MARGIN_MAX: u32 = 255;
/// The most that italic leans over a cell's height, in eighths of a cell's width.
pub const SLANT_MAX: u32 = 8;
/// The most pixels that an outline can have.
pub const OUTLINE_CAP_MAX: u32 = 4;

/// Where the lines of a cue stand between the picture's sides.
#[derive(Clone, Copy, Debug, Default, PartialEq, Eq)]
#[repr(u32)]
pub enum Align {
    #[default]
    Center = 0,
    Left = 1,
    Start = 2,
    Right = 3,
    End = 4,
}

/// How letters are drawn that the font, which ends at U+00FF, has no glyph for.
#[derive(Clone, Copy, Debug, Default, PartialEq, Eq)]
#[repr(u32)]
pub enum GlyphMode {
    /// All as boxes.
    #[default]
    Kept = 0,
    /// U+2018 and U+2019 as `'`, U+201C and U+201D as `"`, U+2013 and U+2014 as `-`; the others as
    /// boxes. Lines stay as they are.
    Replaced = 1,
}

/// Sizes are in pixels, colors are red, green, blue and alpha.
#[derive(Clone, Copy, Debug, PartialEq, Eq)]
pub struct Settings {
    /// At most [`SIDE_MAX`]; 0 is allowed.
    pub width: u32,
    /// At most [`SIDE_MAX`]; 0 is allowed.
    pub height: u32,
    /// The color of letters outside every color list.
    pub default_color: [u8; 4],
    pub outline_color: [u8; 4],
    /// At most [`LINE_HEIGHT_MAX`]; under 16, a cell's height, it counts as 16.
    pub line_height_px: u32,
    /// From the picture's lowest row up; any number.
    pub bottom_margin_px: u32,
    /// Any number; over the cap it counts as the cap.
    pub outline_px: u32,
    pub align: Align,
    pub glyph_mode: GlyphMode,
    /// How far a line stays from the side that it is aligned to: at most [`SIDE_MARGIN_MAX`]. The
    /// line may go beyond the other side, since a margin takes no column from it; one at the center
    /// has none.
    pub side_margin_px: u32,
    /// How far italic leans over a cell's height, in eighths of a cell's width: at most
    /// [`SLANT_MAX`]; at 0 it stands upright.
    pub slant: u32,
    /// The most that the outline counts as: at most [`OUTLINE_CAP_MAX`]; at 0 there is none.
    pub outline_cap_px: u32,
}

impl Settings {
    /// The original's own defaults, and its fixed numbers, for a picture of this size.
    pub fn new(width: u32, height: u32) -> Settings {
        Settings {
            width,
            height,
            default_color: [255; 4],
            outline_color: [0, 0, 0, 255],
            line_height_px: 20,
            bottom_margin_px: 24,
            outline_px: 1,
            align: Align::Center,
            glyph_mode: GlyphMode::Kept,
            side_margin_px: 8,
            slant: 2,
            outline_cap_px: 2,
        }
    }

    /// A cleared buffer as long as the picture. It is empty where width or height is out of range,
    /// which every call that takes settings refuses.
    pub fn new_picture(&self) -> Vec<u8> {
        let side = |pixels: u32| {
            if pixels > SIDE_MAX {
                0
            } else {
                pixels as usize
            }
        };
        vec![0; side(self.width) * side(self.height) * 4]
    }

    /// The settings as the library takes them.
    pub(crate) fn raw(&self) -> raw::Settings {
        raw::Settings {
            width: self.width,
            height: self.height,
            default_color: u32::from_be_bytes(self.default_color),
            outline_color: u32::from_be_bytes(self.outline_color),
            line_height: self.line_height_px,
            bottom_margin: self.bottom_margin_px,
            outline: self.outline_px,
            alignment: self.align as u32,
            glyph_mode: self.glyph_mode as u32,
            side_margin: self.side_margin_px,
            slant: self.slant,
            outline_cap: self.outline_cap_px,
        }
    }
}

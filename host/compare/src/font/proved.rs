//! The proved font: the three functions of `libfont_c.a`, and the limits that they keep.
#![allow(unsafe_code)]

/// Columns and rows of a place are counted from an origin this far left of and above the picture.
pub const ORIGIN: u32 = 1 << 26;
/// The first column, and the first base line, that are not too far left or up.
pub const PLACE_MIN: u32 = 1 << 25;
/// The first column, and the first base line, too far right or down.
pub const PLACE_END: u32 = 1 << 27;
/// The most columns of a picture, the most rows of a part and the last row where a part starts.
pub const SIDE_MAX: u32 = 4096;

/// Which rows of a picture a part of its bytes holds.
#[derive(Clone, Copy, Debug)]
pub struct Part {
    pub width: u32,
    pub rows: u32,
    pub first: u32,
}

/// One glyph to draw, in a glyph mode, with a slant in eighths of a cell. The colour is 0xRRGGBBAA, `y`
/// is the base line.
#[derive(Clone, Copy, Debug)]
pub struct Stroke {
    pub mode: u32,
    pub code: u32,
    pub bold: bool,
    pub slant: u32,
    pub color: u32,
    pub x: u32,
    pub y: u32,
}

unsafe extern "C" {
    fn font_glyph_rows(mode: u32, code: u32, bold: bool, rows: *mut u8);

    fn font_stroke(
        part: *mut u8,
        part_len: usize,
        width: u32,
        rows: u32,
        first: u32,
        mode: u32,
        code: u32,
        bold: bool,
        slant: u32,
        color: u32,
        x: u32,
        y: u32,
    ) -> bool;

    fn font_stroke_rows(
        part: *mut u8,
        part_len: usize,
        width: u32,
        rows: u32,
        first: u32,
        mode: u32,
        code: u32,
        bold: bool,
        slant: u32,
        color: u32,
        x: u32,
        y: u32,
        count: u32,
    ) -> bool;
}

/// Writes the sixteen rows that are drawn for a code point in a glyph mode, bit 7 leftmost.
pub fn glyph_rows(mode: u32, code: u32, bold: bool, rows: &mut [u8; 16]) {
    // Safety: the sixteen bytes are lent for the call alone.
    unsafe { font_glyph_rows(mode, code, bold, rows.as_mut_ptr()) }
}

/// Blends a glyph into a part of a picture, or answers false and leaves the part as it was.
pub fn stroke(bytes: &mut [u8], part: Part, stroke: Stroke) -> bool {
    // Safety: pointer and length are those of one slice, lent for the call alone. Every number is
    // allowed: the function refuses those that it cannot draw.
    unsafe {
        font_stroke(
            bytes.as_mut_ptr(),
            bytes.len(),
            part.width,
            part.rows,
            part.first,
            stroke.mode,
            stroke.code,
            stroke.bold,
            stroke.slant,
            stroke.color,
            stroke.x,
            stroke.y,
        )
    }
}

/// The same of the glyph's `count` lowest rows alone; more than sixteen are all of them.
pub fn stroke_rows(bytes: &mut [u8], part: Part, stroke: Stroke, count: u32) -> bool {
    // Safety: as above.
    unsafe {
        font_stroke_rows(
            bytes.as_mut_ptr(),
            bytes.len(),
            part.width,
            part.rows,
            part.first,
            stroke.mode,
            stroke.code,
            stroke.bold,
            stroke.slant,
            stroke.color,
            stroke.x,
            stroke.y,
            count,
        )
    }
}

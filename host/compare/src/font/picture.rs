//! A picture with strokes over it, drawn by the original and by the proved font.

use crate::fenced::{Fenced, Lent};
use crate::font::proved::{self, ORIGIN, Part};
use reference::Original;
pub use reference::Stroke;
use std::fmt;
use std::ops::Range;

pub struct Picture {
    pub width: u32,
    pub height: u32,
    /// The bytes that the strokes are drawn over.
    pub bytes: Vec<u8>,
    pub strokes: Vec<Stroke>,
    /// Where its rows are cut into the parts that the proved font is lent, from 0 to the height.
    pub cuts: Vec<u32>,
    /// Whether each part gets all strokes before the next part, or each stroke all parts before
    /// the next stroke.
    pub part_by_part: bool,
    /// How many bytes after its own each part is lent, at most a fence's.
    pub further: usize,
}

/// The stroke as the proved font takes it.
pub fn as_proved(stroke: &Stroke) -> proved::Stroke {
    proved::Stroke {
        mode: stroke.mode,
        code: u32::from(stroke.ch),
        bold: stroke.bold,
        slant: stroke.slant,
        color: u32::from_be_bytes(stroke.color),
        x: ORIGIN.wrapping_add_signed(stroke.x),
        y: ORIGIN.wrapping_add_signed(stroke.y),
    }
}

/// The bytes of a fence beside a picture: more than the rows of a glyph, so that a glyph drawn
/// at a wrong row still lands in it.
pub fn fence(width: u32) -> usize {
    20 * 4 * width as usize + 64
}

impl Picture {
    /// Draws it both ways and compares every byte. Answers whether the original changed any.
    pub fn compare(&self, original: &Original) -> Result<bool, String> {
        let expected = self.by_original(original);
        self.hold(&expected, proved::stroke)?;
        Ok(expected != self.bytes)
    }

    pub fn by_original(&self, original: &Original) -> Vec<u8> {
        let mut bytes = self.bytes.clone();
        for stroke in &self.strokes {
            original.draw_glyph_sheared(stroke, &mut bytes, self.width, self.height);
        }
        bytes
    }

    /// Draws the strokes on all parts with a function of the proved font, and holds every byte to
    /// `expected`.
    pub fn hold(
        &self,
        expected: &[u8],
        draw: impl Fn(&mut [u8], Part, proved::Stroke) -> bool,
    ) -> Result<(), String> {
        self.by_proved(expected, draw)
            .map_err(|found| format!("{found}\n{self}"))
    }

    fn by_proved(
        &self,
        expected: &[u8],
        draw: impl Fn(&mut [u8], Part, proved::Stroke) -> bool,
    ) -> Result<(), String> {
        let mut fenced = Fenced::new(&self.bytes, fence(self.width));
        for (stroke, rows) in self.calls() {
            let Lent { answer, kept } = self.draw_part(&mut fenced, stroke, &rows, &draw);
            if !answer {
                return Err(format!("refused {stroke:?} on rows {rows:?}"));
            }
            if !kept {
                return Err(format!("{stroke:?} on rows {rows:?} wrote outside them"));
            }
        }
        self.same(expected, fenced.inside())
    }

    /// The calls of the proved font, in order: a stroke, and the rows of a part.
    fn calls(&self) -> Vec<(&Stroke, Range<u32>)> {
        let parts = || self.cuts.windows(2).map(|cut| cut[0]..cut[1]);
        let strokes = || self.strokes.iter();
        if self.part_by_part {
            parts()
                .flat_map(|rows| strokes().map(move |stroke| (stroke, rows.clone())))
                .collect()
        } else {
            strokes()
                .flat_map(|stroke| parts().map(move |rows| (stroke, rows)))
                .collect()
        }
    }

    fn draw_part(
        &self,
        fenced: &mut Fenced,
        stroke: &Stroke,
        rows: &Range<u32>,
        draw: impl Fn(&mut [u8], Part, proved::Stroke) -> bool,
    ) -> Lent<bool> {
        let row = 4 * self.width as usize;
        let own = rows.start as usize * row..rows.end as usize * row;
        let part = Part {
            width: self.width,
            rows: rows.end - rows.start,
            first: rows.start,
        };
        fenced.lend(own, self.further, |bytes| {
            draw(bytes, part, as_proved(stroke))
        })
    }

    fn same(&self, expected: &[u8], found: &[u8]) -> Result<(), String> {
        let Some(at) = (0..expected.len()).find(|&at| expected[at] != found[at]) else {
            return Ok(());
        };
        let pixel = at / 4;
        let width = self.width as usize;
        Err(format!(
            "row {} column {} byte {}: the original has {}, the proved font {}",
            pixel / width,
            pixel % width,
            at % 4,
            expected[at],
            found[at]
        ))
    }
}

impl fmt::Display for Picture {
    fn fmt(&self, f: &mut fmt::Formatter) -> fmt::Result {
        let order = if self.part_by_part {
            "part by part"
        } else {
            "stroke by stroke"
        };
        write!(
            f,
            "    {} x {} pixels cut at {:?}, {order}, {} further bytes lent",
            self.width, self.height, self.cuts, self.further
        )?;
        for stroke in &self.strokes {
            write!(f, "\n    {stroke:?}")?;
        }
        Ok(())
    }
}

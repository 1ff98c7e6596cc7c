//! What the comparison asks of the original, where it is at hand.

use crate::font::BitmapFont;
use crate::settings::{House, Settings};
use crate::{Line, Run, Stroke, compositor, house, replaced};
use oxideav_core::{Segment, SubtitleCue};
use std::ops::Range;

/// The original: its fonts, and the functions of its compositor. Only [`crate::original`] and
/// [`crate::changed`] make one.
pub struct Original {
    regular: &'static BitmapFont,
    bold: &'static BitmapFont,
    /// Whether the changed text draws even at the original's numbers.
    changed: bool,
}

impl Original {
    pub(crate) fn find(changed: bool) -> Option<Original> {
        Some(Original {
            regular: BitmapFont::default_regular(),
            bold: BitmapFont::default_bold(),
            changed,
        })
    }

    fn font(&self, bold: bool) -> &'static BitmapFont {
        if bold { self.bold } else { self.regular }
    }

    /// Draws one glyph into a picture of `w` by `h` pixels, upright or slanted, for which the original's
    /// font takes any shear; in glyph mode 1 that of the letter replaced.
    pub fn draw_glyph_sheared(&self, stroke: &Stroke, dst: &mut [u8], w: u32, h: u32) {
        let Stroke {
            ch, color, x, y, ..
        } = *stroke;
        let font = self.font(stroke.bold);
        let shear = font.cell_w as f32 * stroke.slant as f32 / 8.0;
        let ch = replaced::in_mode(stroke.mode, ch);
        font.draw_glyph_sheared(ch, dst, w, h, x, y, color, shear);
    }

    /// The sixteen rows that the original draws for a code point, bit 7 leftmost, or `None` where
    /// the code is no `char`. They are read off a picture, since its tables are private.
    pub fn glyph_rows(&self, bold: bool, code: u32) -> Option<[u8; 16]> {
        const WHITE: [u8; 4] = [255; 4];
        let ch = char::from_u32(code)?;
        let mut picture = [0; 8 * 16 * 4];
        self.font(bold)
            .draw_glyph(ch, &mut picture, 8, 16, 0, 12, WHITE);
        let (pixels, _) = picture.as_chunks::<4>();
        let mut rows = [0; 16];
        for (row, line) in rows.iter_mut().zip(pixels.chunks_exact(8)) {
            for pixel in line {
                *row = *row << 1 | u8::from(*pixel == WHITE);
            }
        }
        Some(rows)
    }

    /// Whether the glyph that the original draws for a letter has ink: a row of it is not zero. The
    /// counted loop asks the font's lookup, and the comparison holds the two to each other.
    pub fn has_ink(&self, bold: bool, ch: char) -> bool {
        self.glyph_rows(bold, ch.into()) != Some([0; 16])
    }

    /// The runs of segments, merged, where the style around them has this color and no mark.
    pub fn flatten_segments(&self, segments: &[Segment], color: [u8; 4]) -> Vec<Run> {
        runs(compositor::flatten(segments, color))
    }

    /// The lines of those runs, wrapped to this many columns.
    pub fn wrap(&self, segments: &[Segment], color: [u8; 4], max_cols: usize) -> Vec<Line> {
        compositor::wrap(segments, color, max_cols)
            .into_iter()
            .map(|(pieces, columns)| Line {
                pieces: runs(pieces),
                columns: columns as usize,
            })
            .collect()
    }

    /// The lines that the original draws of segments with these settings.
    pub fn lines(&self, settings: &Settings, segments: &[Segment]) -> Vec<Line> {
        let wrap = |segments: &[Segment]| {
            let (color, limit) = (settings.default_color, settings.limit());
            self.wrap(segments, color, limit)
        };
        match settings.glyph_mode {
            1 => wrap(&replaced::all(segments)),
            _ => wrap(segments),
        }
    }

    /// How many lines there are: flattening and wrapping alone, for whoever takes the time.
    pub fn count_lines(&self, segments: &[Segment], color: [u8; 4], max_cols: usize) -> usize {
        compositor::count_lines(segments, color, max_cols)
    }

    /// Draws a cue, with no face, into a buffer that begins with the picture.
    pub fn render_into(&self, settings: &Settings, cue: &SubtitleCue, dst: &mut [u8]) {
        fed(settings, cue, |cue| {
            if self.is_as_it_was(settings) {
                compositor::told(settings).render_into(cue, dst);
            } else {
                changed(settings).render_into(cue, dst);
            }
        });
    }

    /// Clears the picture as `render_into` does and draws the first of the cue's strokes, so many.
    /// Answers how many there are in all.
    pub fn render_strokes(
        &self,
        settings: &Settings,
        cue: &SubtitleCue,
        dst: &mut [u8],
        strokes: usize,
    ) -> usize {
        let nothing = SubtitleCue {
            segments: Vec::new(),
            positioning: None,
        };
        self.render_into(settings, &nothing, dst);
        self.draw_strokes(settings, cue, dst, 0..strokes)
    }

    /// Draws the cue's strokes with these numbers alone, over what the buffer holds. Answers how many
    /// there are in all.
    pub fn draw_strokes(
        &self,
        settings: &Settings,
        cue: &SubtitleCue,
        dst: &mut [u8],
        window: Range<usize>,
    ) -> usize {
        fed(settings, cue, |cue| {
            if self.is_as_it_was(settings) {
                compositor::draw_strokes(&compositor::told(settings), cue, dst, window)
            } else {
                house::draw_strokes(&changed(settings), cue, dst, window)
            }
        })
    }

    /// Whether the original's text draws that nothing was changed in.
    fn is_as_it_was(&self, settings: &Settings) -> bool {
        !self.changed && settings.house == House::ORIGINAL
    }
}

/// Has a cue drawn as the original is fed it: in glyph mode 1 its letters are replaced.
fn fed<R>(settings: &Settings, cue: &SubtitleCue, draw: impl FnOnce(&SubtitleCue) -> R) -> R {
    match settings.glyph_mode {
        1 => draw(&replaced::cue(cue)),
        _ => draw(cue),
    }
}

/// A compositor of the changed text.
fn changed(settings: &Settings) -> house::Compositor {
    house::Compositor {
        house: settings.house,
        ..house::told(settings)
    }
}

fn runs(opened: Vec<compositor::Opened>) -> Vec<Run> {
    opened
        .into_iter()
        .map(|(text, bold, italic, color)| Run {
            text,
            bold,
            italic,
            color,
        })
        .collect()
}

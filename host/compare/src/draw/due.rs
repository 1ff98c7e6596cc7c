//! What is due of a call: the original's picture, or the refusal that documents 01 and 02 ask for.

use crate::draw::frame::{Drawn, Frame, Outcome};
use crate::draw::settings::{
    ALIGNMENTS, GLYPH_MODES, LINE_HEIGHT_MAX, OUTLINE_CAP_MAX, SIDE_MARGIN_MAX, SIDE_MAX,
    SLANT_MAX, Settings,
};
use crate::refusal::{Refusal, plain};
use crate::tape::letters::{self, segments};
use crate::tape::{MOST_BYTES, ROOM, reading};
use oxideav_core::{Segment, SubtitleCue};
use reference::Original;

/// The strokes of a cue. A letter on a line whose glyph has no ink has none (document 02, S-6).
#[derive(Default)]
pub struct Strokes {
    pub total: usize,
    /// Of each letter on a line that has none, how many come before it.
    pub inkless: Vec<usize>,
}

/// What the original draws of a cue over these bytes, and its strokes.
pub fn drawn(original: &Original, settings: &Settings, cue: &SubtitleCue, bytes: &[u8]) -> Drawn {
    Drawn {
        strokes: strokes(original, settings, &cue.segments).total,
        bytes: picture(original, settings, cue, bytes),
    }
}

/// What these bytes are after the original has drawn a cue over them.
pub fn picture(
    original: &Original,
    settings: &Settings,
    cue: &SubtitleCue,
    bytes: &[u8],
) -> Vec<u8> {
    let mut bytes = bytes.to_vec();
    original.render_into(settings, cue, &mut bytes);
    bytes
}

/// The strokes of a cue: the original's letters on lines are counted for them, where the glyphs that
/// it draws have ink. In glyph mode 1 its lines hold the letters that are drawn.
pub fn strokes(original: &Original, settings: &Settings, segments: &[Segment]) -> Strokes {
    let lines = original.lines(settings, segments);
    let pieces = lines.iter().flat_map(|line| &line.pieces);
    let mut strokes = Strokes::default();
    for (bold, ch) in pieces.flat_map(|piece| piece.text.chars().map(|ch| (piece.bold, ch))) {
        if original.has_ink(bold, ch) {
            strokes.total += settings.strokes();
        } else {
            strokes.inkless.push(strokes.total);
        }
    }
    strokes
}

/// What is due of a call of any kind. Where it is not refused, the original draws the letters that
/// are read from its tape.
pub fn of_frame(original: &Original, frame: &Frame) -> Outcome {
    let settings = &frame.settings;
    let letters = letters(frame)?;
    let cue = SubtitleCue {
        segments: segments(&letters, settings.default_color),
        positioning: settings.positioning(false),
    };
    Ok(drawn(original, settings, &cue, &frame.bytes))
}

/// The letters of a call's tape, or the first thing that stops it.
pub fn letters(frame: &Frame) -> letters::Outcome {
    settings_and_lengths(frame)?;
    reading::read(&frame.tape, frame.settings.default_color)
}

/// What stops a call before its tape is read, if anything: its settings, or the length of its
/// picture's buffer, its tape or its workspace.
pub fn settings_and_lengths(frame: &Frame) -> Result<(), Refusal> {
    let settings = &frame.settings;
    if is_out_of_range(settings) {
        plain(8)
    } else if frame.bytes.len() < settings.area() {
        plain(9)
    } else if frame.tape.len() > MOST_BYTES {
        plain(10)
    } else if frame.room < ROOM {
        plain(11)
    } else {
        Ok(())
    }
}

fn is_out_of_range(settings: &Settings) -> bool {
    let house = &settings.house;
    settings.width > SIDE_MAX
        || settings.height > SIDE_MAX
        || settings.line_height > LINE_HEIGHT_MAX
        || !ALIGNMENTS.contains(&settings.alignment)
        || !GLYPH_MODES.contains(&settings.glyph_mode)
        || house.side_margin > SIDE_MARGIN_MAX
        || house.slant > SLANT_MAX
        || house.outline_cap > OUTLINE_CAP_MAX
}

//! Cues and settings that are not random, each held to the original.

use crate::count::Count;
use crate::draw::due;
use crate::draw::frame::Frame;
use crate::draw::settings::{House, Settings};
use crate::random::Random;
use crate::tape::ROOM;
use crate::tape::segments::each_letter;
use crate::wrap::cues::{self, Cue};
use oxideav_core::{Segment, SubtitleCue};
use reference::Original;

/// How many bytes stand behind a picture.
const BEHIND: usize = 9;

/// A default color and an outline color.
pub type Colors = [[u8; 4]; 2];

pub const OPAQUE: Colors = [[255, 255, 255, 255], [0, 0, 0, 255]];
/// These show the order of strokes.
pub const TRANSLUCENT: Colors = [[250, 200, 20, 128], [10, 90, 240, 77]];
/// Opaque, translucent, and with an alpha of 0 or next to an end of its range.
pub const COLORS: [Colors; 4] = [
    OPAQUE,
    TRANSLUCENT,
    [[1, 2, 3, 0], [255, 254, 253, 254]],
    [[255, 254, 253, 1], [4, 5, 6, 0]],
];

/// Settings of a picture of this size: translucent, with an outline, at its bottom.
pub fn translucent(width: u32, height: u32) -> Settings {
    let [default_color, outline_color] = TRANSLUCENT;
    Settings {
        width,
        height,
        default_color,
        outline_color,
        line_height: 16,
        bottom_margin: 0,
        outline: 1,
        alignment: 0,
        glyph_mode: 0,
        house: House::ORIGINAL,
    }
}

/// A text for each letter of these.
pub fn text(text: &str) -> Cue {
    cues::shortest(each_letter(text))
}

/// The segments with bold and italic around them, as asked.
pub fn marked(bold: bool, italic: bool, mut segments: Vec<Segment>) -> Vec<Segment> {
    if bold {
        segments = vec![Segment::Bold(segments)];
    }
    if italic {
        segments = vec![Segment::Italic(segments)];
    }
    segments
}

/// Draws the cue with each of the settings, and, where it is centered, for a cue that says so and
/// for one that says nothing.
pub fn check(
    original: &Original,
    count: &mut Count,
    cue: Cue,
    settings: impl IntoIterator<Item = Settings>,
) {
    let mut frame = Frame {
        settings: translucent(0, 0),
        tape: cue.tape,
        room: ROOM,
        bytes: Vec::new(),
    };
    let mut cue = SubtitleCue {
        segments: cue.segments,
        positioning: None,
    };
    for settings in settings {
        frame.settings = settings;
        frame.bytes = vec![0; settings.area() + BEHIND];
        Random::new(0, settings.area() as u64).fill(&mut frame.bytes);
        let ways: &[bool] = match settings.alignment {
            0 => &[false, true],
            _ => &[false],
        };
        for &unsaid in ways {
            cue.positioning = settings.positioning(unsaid);
            let due = due::drawn(original, &settings, &cue, &frame.bytes);
            count.check(frame.hold(&Ok(due)));
        }
    }
}

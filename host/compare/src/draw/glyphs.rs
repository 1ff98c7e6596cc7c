//! Every glyph in every style, with every outline; and what glyph mode 1 draws.

use crate::count::Count;
use crate::curly::{BESIDE, PLAIN, REPLACED};
use crate::draw::cases::{self, COLORS, marked, translucent};
use crate::draw::settings::Settings;
use crate::font::strokes::STYLES;
use crate::tape::segments::each_letter;
use crate::wrap::cues;
use reference::Original;

/// Code points past the table: some whose low bits are a letter's, and the ends of each length.
const PAST: [char; 8] = [
    '\u{101}',
    '\u{141}',
    '\u{7ff}',
    '\u{d7ff}',
    '\u{e000}',
    '\u{1_0041}',
    '\u{10_0041}',
    '\u{10_ffff}',
];

const OUTLINES: [u32; 6] = [0, 1, 2, 3, 9, u32::MAX];

pub fn compare(original: &Original) -> [Count; 2] {
    let mut counts = [
        "glyphs of Draw in glyph mode 0",
        "glyphs of Draw in glyph mode 1",
    ]
    .map(Count::new);
    let curly = || REPLACED.into_iter().chain(BESIDE).chain(PLAIN);
    for ch in ('\0'..='\u{100}').chain(PAST).chain(curly()) {
        each_style(original, &mut counts[0], ch, 0);
    }
    for ch in ['A', ' ', '\u{1}', '\u{ff}', '\u{100}']
        .into_iter()
        .chain(curly())
    {
        each_style(original, &mut counts[1], ch, 1);
    }
    counts
}

/// Between two letters, which keep a space, or a control, from being dropped.
fn each_style(original: &Original, count: &mut Count, ch: char, glyph_mode: u32) {
    for (bold, italic) in STYLES {
        let segments = each_letter(&format!("H{ch}g"));
        let cue = cues::shortest(marked(bold, italic, segments));
        let settings = OUTLINES.into_iter().flat_map(|outline| {
            COLORS.map(|[default_color, outline_color]| Settings {
                default_color,
                outline_color,
                outline,
                // Said, so that each is drawn once.
                alignment: 3,
                bottom_margin: 4,
                glyph_mode,
                ..translucent(34, 42)
            })
        });
        cases::check(original, count, cue, settings);
    }
}

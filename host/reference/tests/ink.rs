//! The original's strokes as they are counted: a letter without ink has none, and takes its cell.
//! Where the original is not at hand, there is nothing to test.
#![cfg(original)]

use oxideav_core::{Segment, SubtitleCue};
use reference::Original;
use reference::settings::{House, Settings};
use std::ops::Range;

/// Room for a line of six letters, at the left; those with ink have nine strokes.
const SETTINGS: Settings = Settings {
    width: 56,
    height: 20,
    default_color: [250, 200, 20, 128],
    outline_color: [10, 90, 240, 77],
    line_height: 16,
    bottom_margin: 1,
    outline: 1,
    alignment: 1,
    glyph_mode: 0,
    house: House::ORIGINAL,
};

fn original() -> Original {
    reference::original().expect("the original is at hand")
}

fn cue(bold: bool, text: &str) -> SubtitleCue {
    let text = Segment::Text(text.to_string());
    let segment = if bold {
        Segment::Bold(vec![text])
    } else {
        text
    };
    SubtitleCue {
        segments: vec![segment],
        positioning: SETTINGS.positioning(false),
    }
}

/// How many strokes a text has, and what those of the window leave on zeros.
fn drawn(original: &Original, cue: &SubtitleCue, window: Range<usize>) -> (usize, Vec<u8>) {
    let mut bytes = vec![0; SETTINGS.area()];
    let strokes = original.draw_strokes(&SETTINGS, cue, &mut bytes, window);
    (strokes, bytes)
}

#[test]
fn a_letter_without_ink_has_no_strokes() {
    let original = original();
    let texts = [
        ("A\u{1}B", 18),
        ("A B", 18),
        ("A\tB", 18),
        ("\u{a0}", 0),
        ("\u{ad}", 0),
        ("\u{7f}A\u{9f}", 9),
        ("\u{100}", 9),
        ("", 0),
    ];
    for (text, due) in texts {
        for bold in [false, true] {
            let (strokes, _) = drawn(&original, &cue(bold, text), 0..0);
            assert_eq!(strokes, due, "{text:?}, bold {bold}");
        }
    }
}

/// Whether a letter has ink is the same by the rows that are drawn and by those that are looked up.
#[test]
fn every_letter_has_strokes_where_ink_is_drawn() {
    let original = original();
    for (ch, bold) in ('\0'..='\u{2ff}').flat_map(|ch| [(ch, false), (ch, true)]) {
        // Between two letters, which keep a space, or a control, from being dropped.
        let (strokes, _) = drawn(&original, &cue(bold, &format!("H{ch}g")), 0..0);
        let ink = usize::from(original.has_ink(bold, ch));
        assert_eq!(strokes, 9 * (2 + ink), "{ch:?}, bold {bold}");
    }
}

#[test]
fn a_letter_without_ink_takes_its_cell() {
    let original = original();
    // With the box in its place B has nine strokes more before it, and stands in the same cell.
    let (blank, boxed) = (cue(false, "A\u{1}B"), cue(false, "A\u{100}B"));
    let (_, first) = drawn(&original, &blank, 0..9);
    let (_, last) = drawn(&original, &blank, 9..18);
    assert!(first == drawn(&original, &boxed, 0..9).1);
    assert!(last == drawn(&original, &boxed, 18..27).1);
    assert!(first != last);
}

#[test]
fn all_strokes_are_the_picture() {
    let original = original();
    let cue = cue(true, "\u{ad}a \u{1}b\u{a0}");
    let mut whole = vec![0xa5; SETTINGS.area()];
    original.render_into(&SETTINGS, &cue, &mut whole);
    assert!(drawn(&original, &cue, 0..18) == (18, whole));
}

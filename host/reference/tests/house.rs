//! The original's text with its fixed numbers made settings: at the original's numbers it draws as the
//! text does that nothing was changed in, and at others as document 02's S-10 says. Where the original
//! is not at hand, there is nothing to test.
#![cfg(original)]

use oxideav_core::{Segment, SubtitleCue};
use reference::Original;
use reference::settings::{ALIGNMENTS, House, OUTLINE_CAP_MAX, SLANT_MAX, Settings};
use std::ops::Range;

/// Translucent, so that the order of strokes is seen.
const SETTINGS: Settings = Settings {
    width: 70,
    height: 48,
    default_color: [250, 200, 20, 128],
    outline_color: [10, 90, 240, 77],
    line_height: 18,
    bottom_margin: 3,
    outline: 9,
    alignment: 1,
    glyph_mode: 0,
    house: House::ORIGINAL,
};
/// Each number other than the original's, alone.
const OTHERS: [House; 3] = [
    House {
        side_margin: 9,
        ..House::ORIGINAL
    },
    House {
        slant: 3,
        ..House::ORIGINAL
    },
    House {
        outline_cap: 3,
        ..House::ORIGINAL
    },
];

fn original() -> Original {
    reference::original().expect("the original is at hand")
}

fn cue(settings: &Settings, segments: Vec<Segment>) -> SubtitleCue {
    SubtitleCue {
        segments,
        positioning: settings.positioning(false),
    }
}

fn text(text: &str) -> Segment {
    Segment::Text(text.to_string())
}

/// Two lines, in each weight upright and italic, with a letter that has no ink.
fn words() -> Vec<Segment> {
    vec![
        text("Hg \u{ad}"),
        Segment::Italic(vec![text("\u{100}g"), Segment::Bold(vec![text("j\nÅ")])]),
        Segment::Bold(vec![text("p")]),
    ]
}

fn whole(original: &Original, settings: &Settings, segments: Vec<Segment>) -> Vec<u8> {
    let mut bytes = vec![0xa5; settings.area()];
    original.render_into(settings, &cue(settings, segments), &mut bytes);
    bytes
}

/// How many strokes there are, and what those of the window leave on zeros.
fn counted(original: &Original, settings: &Settings, window: Range<usize>) -> (usize, Vec<u8>) {
    let mut bytes = vec![0; settings.area()];
    let cue = cue(settings, words());
    let strokes = original.draw_strokes(settings, &cue, &mut bytes, window);
    (strokes, bytes)
}

/// Every alignment with outlines under, at and over the original's cap.
fn each_place() -> impl Iterator<Item = Settings> {
    ALIGNMENTS.into_iter().flat_map(|alignment| {
        [0, 1, 2, 3, u32::MAX].map(|outline| Settings {
            alignment,
            outline,
            ..SETTINGS
        })
    })
}

#[test]
fn at_the_originals_numbers_both_texts_draw_the_same() {
    let original = original();
    let changed = reference::changed().expect("the original is at hand");
    for settings in each_place() {
        let [as_it_was, now] = [&original, &changed].map(|text| whole(text, &settings, words()));
        assert!(as_it_was == now, "{settings:?}");
        let (strokes, _) = counted(&original, &settings, 0..0);
        assert_eq!(strokes, 7 * settings.strokes());
        for at in [0, 1, strokes / 2, strokes - 1, strokes] {
            for window in [0..at, at..strokes] {
                let [as_it_was, now] =
                    [&original, &changed].map(|text| counted(text, &settings, window.clone()));
                assert!(as_it_was == now, "{settings:?}, {window:?}");
            }
        }
    }
}

#[test]
fn each_number_alone_draws_another_picture() {
    let original = original();
    let (all, _) = counted(&original, &SETTINGS, 0..0);
    for house in OTHERS {
        let settings = Settings { house, ..SETTINGS };
        let [before, now] =
            [SETTINGS, settings].map(|settings| whole(&original, &settings, words()));
        assert!(before != now, "{house:?}");
        let [before, now] =
            [SETTINGS, settings].map(|settings| counted(&original, &settings, 0..all).1);
        assert!(before != now, "{house:?}, counted");
    }
}

/// The picture's rows of a letter, each as its first sixteen columns, the first of them highest.
fn bits(settings: &Settings, bytes: &[u8]) -> Vec<u16> {
    let lit = |pixel: &[u8]| u16::from(pixel != [0; 4]);
    bytes
        .chunks_exact(4 * settings.width as usize)
        .map(|row| {
            row.chunks_exact(4)
                .fold(0, |bits, pixel| bits << 1 | lit(pixel))
        })
        .collect()
}

/// A letter without an outline in a picture of sixteen columns, whose first row is its own.
fn letter(house: House, alignment: u32, segment: Segment) -> Vec<u16> {
    let settings = Settings {
        width: 16,
        height: 16,
        bottom_margin: 0,
        outline: 0,
        alignment,
        house,
        ..SETTINGS
    };
    bits(&settings, &whole(&original(), &settings, vec![segment]))
}

#[test]
fn a_row_moves_by_the_rounded_fraction() {
    for (slant, ch) in (0..=SLANT_MAX).flat_map(|slant| ["g", "Å", "\u{100}"].map(|ch| (slant, ch)))
    {
        let house = House {
            side_margin: 4,
            slant,
            ..House::ORIGINAL
        };
        let upright = letter(house, 1, text(ch));
        let italic = letter(house, 1, Segment::Italic(vec![text(ch)]));
        for (row, (upright, italic)) in (0..).zip(upright.iter().zip(italic)) {
            let (far, b) = (12_i32.abs_diff(row), 12 - row);
            // b · slant / 16, halves away from zero.
            let moved = (far * slant + 8) / 16;
            let due = if b > 0 {
                upright >> moved
            } else {
                upright << moved
            };
            assert_eq!(italic, due, "slant {slant}, {ch} row {row}");
        }
    }
}

#[test]
fn a_line_stands_beside_the_margin() {
    let at = |side_margin, alignment| {
        let house = House {
            side_margin,
            ..House::ORIGINAL
        };
        letter(house, alignment, text("H"))
    };
    let moved = |rows: &[u16], by: i32| -> Vec<u16> {
        let one = |row: &u16| match by {
            0.. => row.checked_shr(by as u32).unwrap_or(0),
            _ => row.checked_shl(by.unsigned_abs()).unwrap_or(0),
        };
        rows.iter().map(one).collect()
    };
    let first = at(0, 1);
    for margin in [0, 1, 5, 8, 9, 15, 16, 255] {
        for alignment in ALIGNMENTS {
            let start = match alignment {
                0 => 4,
                1 | 2 => margin as i32,
                _ => 8 - margin as i32,
            };
            let due = moved(&first, start);
            assert!(at(margin, alignment) == due, "{margin}, {alignment}");
        }
    }
}

#[test]
fn the_outline_is_a_ring_at_the_cap() {
    let original = original();
    for (outline, outline_cap) in
        (0..=6).flat_map(|outline| (0..=OUTLINE_CAP_MAX).map(move |cap| (outline, cap)))
    {
        let house = House {
            outline_cap,
            ..House::ORIGINAL
        };
        let settings = Settings {
            outline,
            house,
            ..SETTINGS
        };
        let o = outline.min(outline_cap) as usize;
        let (strokes, _) = counted(&original, &settings, 0..0);
        assert_eq!(
            strokes,
            7 * (1 + 8 * o),
            "outline {outline}, cap {outline_cap}"
        );
        let lit = |window| {
            let (_, bytes) = counted(&original, &settings, window);
            bytes.iter().position(|&byte| byte != 0).unwrap_or_default()
        };
        // The first stroke of a letter lies o rows over and o columns beside its last.
        let [first, last] = [lit(0..1), lit(8 * o..8 * o + 1)];
        assert_eq!(last - first, 4 * o * (settings.width as usize + 1));
    }
}

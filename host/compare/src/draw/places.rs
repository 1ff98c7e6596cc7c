//! Where lines stand: every alignment at every small width, margins, line heights, and sizes at the
//! limits.

use crate::count::Count;
use crate::draw::cases::{self, marked, text, translucent};
use crate::draw::settings::{ALIGNMENTS, LINE_HEIGHT_MAX, SIDE_MAX, Settings};
use crate::tape::segments::each_letter;
use crate::wrap::cues::{self, Cue};
use oxideav_core::Segment;
use reference::Original;

/// One line, several, blank ones between, letters that reach below the base line, controls at each
/// place, spaces and tabs that are kept, and a word to cut.
const TEXTS: [&str; 9] = [
    "A",
    ",_\u{100}g",
    "A\u{1}B\u{85}C",
    "\u{1}\u{2}A",
    "A\u{1}\u{2}\u{3}\u{4}",
    "A\nBCD\n\n\nEF",
    "\n\nA",
    "A  B\t\nC\tD",
    "ABCDEFGHIJKLMNOPQRSTUVWXYZ ab cd ef",
];

pub fn compare(original: &Original) -> Count {
    let mut count = Count::new("places of Draw");
    for words in TEXTS {
        cases::check(original, &mut count, text(words), widths());
        cases::check(original, &mut count, text(words), heights());
        cases::check(original, &mut count, text(words), line_heights());
        cases::check(original, &mut count, text(words), sizes());
    }
    cases::check(original, &mut count, text(""), sizes());
    cases::check(original, &mut count, styled(), sizes().chain(largest()));
    count
}

fn widths() -> impl Iterator<Item = Settings> {
    (0..=42).flat_map(|width| {
        ALIGNMENTS.map(|alignment| Settings {
            alignment,
            ..translucent(width, 37)
        })
    })
}

/// Each height with margins that leave much, little or nothing of it.
fn heights() -> impl Iterator<Item = Settings> {
    (0..=36).flat_map(|height: u32| {
        let margins = [
            0,
            1,
            3,
            height.saturating_sub(5),
            height.saturating_sub(4),
            height.saturating_sub(3),
            height,
            height + 1,
            u32::MAX - 3,
            u32::MAX,
        ];
        margins.map(|bottom_margin| Settings {
            bottom_margin,
            alignment: 1,
            outline: 2,
            ..translucent(30, height)
        })
    })
}

fn line_heights() -> impl Iterator<Item = Settings> {
    let most = LINE_HEIGHT_MAX;
    let heights = [0, 1, 8, 15, 16, 17, 20, 31, 32, 33, most - 1, most];
    heights.into_iter().map(|line_height| Settings {
        line_height,
        alignment: 2,
        outline: 2,
        ..translucent(26, 90)
    })
}

/// Pictures with nothing in them, with one pixel, and as wide or as tall as there may be.
fn sizes() -> impl Iterator<Item = Settings> {
    let most = SIDE_MAX;
    let sizes = [
        (0, 0),
        (0, 5),
        (5, 0),
        (0, most),
        (most, 0),
        (1, 1),
        (7, 16),
        (8, 16),
        (9, 16),
        (most, 1),
        (1, most),
        (most - 1, 20),
        (most, 20),
        (20, most),
    ];
    sizes.into_iter().flat_map(|(width, height)| {
        ALIGNMENTS.map(|alignment| Settings {
            alignment,
            ..translucent(width, height)
        })
    })
}

/// The largest picture, with lines from its bottom to its top, and just short of the top.
fn largest() -> impl Iterator<Item = Settings> {
    [(1, 0, 1016), (4, SIDE_MAX - 20, 16)].into_iter().map(
        |(alignment, bottom_margin, line_height)| Settings {
            alignment,
            bottom_margin,
            line_height,
            outline: 2,
            ..translucent(SIDE_MAX, SIDE_MAX)
        },
    )
}

/// Five lines, in every style.
fn styled() -> Cue {
    let words = || each_letter("Hg\u{c5}\u{1}\u{100}");
    let mut segments = Vec::new();
    for (bold, italic) in [(false, false), (true, false), (false, true), (true, true)] {
        segments.extend(marked(bold, italic, words()));
        segments.push(Segment::LineBreak);
    }
    segments.push(Segment::Color {
        rgb: (200, 100, 0),
        children: words(),
    });
    cues::shortest(segments)
}

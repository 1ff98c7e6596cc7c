//! What the original, which knows no glyph mode, is fed in mode 1: the letters of document 02's S-3
//! replaced, wherever they stand.

use oxideav_core::{Positioning, Segment, SubtitleCue};

/// The letters that mode 1 draws as others, by what it draws them as.
pub fn replaced(ch: char) -> char {
    match ch {
        '\u{2018}' | '\u{2019}' => '\u{27}',
        '\u{201c}' | '\u{201d}' => '\u{22}',
        '\u{2013}' | '\u{2014}' => '\u{2d}',
        _ => ch,
    }
}

/// What is drawn for a letter in a glyph mode.
pub fn in_mode(mode: u32, ch: char) -> char {
    if mode == 1 { replaced(ch) } else { ch }
}

/// How many letters of segments mode 1 replaces.
pub fn count(segments: &[Segment]) -> usize {
    let of = |text: &str| text.chars().filter(|&ch| replaced(ch) != ch).count();
    let each = segments.iter().map(|segment| match segment {
        Segment::Text(text) | Segment::Raw(text) => of(text),
        Segment::LineBreak | Segment::Timestamp {} => 0,
        Segment::Bold(children)
        | Segment::Italic(children)
        | Segment::Underline(children)
        | Segment::Strike(children)
        | Segment::Color { children, .. }
        | Segment::Font { children }
        | Segment::Class { children }
        | Segment::Karaoke { children } => count(children),
        Segment::Voice { name, children } => of(name) + count(children),
    });
    each.sum()
}

/// Segments with their letters replaced, names too.
pub fn all(segments: &[Segment]) -> Vec<Segment> {
    segments.iter().map(one).collect()
}

fn one(segment: &Segment) -> Segment {
    let letters = |text: &str| text.chars().map(replaced).collect();
    match segment {
        Segment::Text(text) => Segment::Text(letters(text)),
        Segment::Raw(text) => Segment::Raw(letters(text)),
        Segment::LineBreak => Segment::LineBreak,
        Segment::Timestamp {} => Segment::Timestamp {},
        Segment::Bold(children) => Segment::Bold(all(children)),
        Segment::Italic(children) => Segment::Italic(all(children)),
        Segment::Underline(children) => Segment::Underline(all(children)),
        Segment::Strike(children) => Segment::Strike(all(children)),
        Segment::Color { rgb, children } => Segment::Color {
            rgb: *rgb,
            children: all(children),
        },
        Segment::Font { children } => Segment::Font {
            children: all(children),
        },
        Segment::Class { children } => Segment::Class {
            children: all(children),
        },
        Segment::Karaoke { children } => Segment::Karaoke {
            children: all(children),
        },
        Segment::Voice { name, children } => Segment::Voice {
            name: letters(name),
            children: all(children),
        },
    }
}

/// A cue with its letters replaced; it asks to stand where it did.
pub fn cue(cue: &SubtitleCue) -> SubtitleCue {
    let align = cue
        .positioning
        .as_ref()
        .map(|positioning| positioning.align);
    SubtitleCue {
        segments: all(&cue.segments),
        positioning: align.map(|align| Positioning { align }),
    }
}

//! Stands in for the crate `oxideav_core`, which oxideav-subtitle's `font.rs` and `compositor.rs`
//! depend on and which is not at hand here.
//!
//! It has the three types that the two files name with the feature `text` off, and of each only
//! the variants and fields that they name. The real types have more.

/// A piece of a cue's styled text.
pub enum Segment {
    Text(String),
    LineBreak,
    Bold(Vec<Segment>),
    Italic(Vec<Segment>),
    Underline(Vec<Segment>),
    Strike(Vec<Segment>),
    Color {
        rgb: (u8, u8, u8),
        children: Vec<Segment>,
    },
    Font {
        children: Vec<Segment>,
    },
    Voice {
        name: String,
        children: Vec<Segment>,
    },
    Class {
        children: Vec<Segment>,
    },
    Karaoke {
        children: Vec<Segment>,
    },
    Timestamp {},
    Raw(String),
}

/// A cue: its text, and where it asks to stand.
pub struct SubtitleCue {
    pub segments: Vec<Segment>,
    pub positioning: Option<Positioning>,
}

/// Where a cue asks to stand. The two files read its field and never name its type.
pub struct Positioning {
    pub align: TextAlign,
}

/// How the lines of a cue are aligned.
#[derive(Clone, Copy)]
pub enum TextAlign {
    Start,
    Center,
    End,
    Left,
    Right,
}

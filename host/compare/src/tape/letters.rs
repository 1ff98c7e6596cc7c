//! Letters with their styles, and what a tape comes to.

use crate::refusal::Refusal;
use oxideav_core::Segment;
use reference::Run;

#[derive(Clone, Copy, Debug, PartialEq)]
pub struct Style {
    pub color: [u8; 4],
    pub bold: bool,
    pub italic: bool,
}

#[derive(Clone, Copy, Debug, PartialEq)]
pub struct Letter {
    pub code: u32,
    pub style: Style,
    /// Whether a run starts with it.
    pub start: bool,
}

pub type Outcome = Result<Vec<Letter>, Refusal>;

impl Letter {
    /// The eight bytes of a letter in the workspace.
    pub fn bytes(&self) -> [u8; 8] {
        let [_, high, middle, low] = self.code.to_be_bytes();
        let [red, green, blue, alpha] = self.style.color;
        let flags =
            u8::from(self.style.bold) + 2 * u8::from(self.style.italic) + 4 * u8::from(self.start);
        [high, middle, low, red, green, blue, alpha, flags]
    }
}

/// The letters of merged runs: the first of each run starts it.
pub fn of_runs(runs: &[Run]) -> Vec<Letter> {
    let mut letters = Vec::new();
    for run in runs {
        let style = Style {
            color: run.color,
            bold: run.bold,
            italic: run.italic,
        };
        for (at, ch) in run.text.chars().enumerate() {
            letters.push(Letter {
                code: u32::from(ch),
                style,
                start: at == 0,
            });
        }
    }
    letters
}

/// Segments that have these letters, where the style around them has this color and no mark.
pub fn segments(letters: &[Letter], color: [u8; 4]) -> Vec<Segment> {
    let mut segments = Vec::new();
    let mut before = None;
    for run in letters.chunk_by(|_, next| !next.start) {
        let style = run[0].style;
        if before == Some(style) {
            // An empty run of another style kept the two apart.
            let bold = !style.bold;
            segments.push(styled(Style { bold, ..style }, color, String::new()));
        }
        before = Some(style);
        let text = run.iter().filter_map(|letter| char::from_u32(letter.code));
        segments.push(styled(style, color, text.collect()));
    }
    segments
}

fn styled(style: Style, around: [u8; 4], text: String) -> Segment {
    let mut segment = Segment::Text(text);
    if style.bold {
        segment = Segment::Bold(vec![segment]);
    }
    if style.italic {
        segment = Segment::Italic(vec![segment]);
    }
    if style.color != around {
        let [red, green, blue, _] = style.color;
        segment = Segment::Color {
            rgb: (red, green, blue),
            children: vec![segment],
        };
    }
    segment
}

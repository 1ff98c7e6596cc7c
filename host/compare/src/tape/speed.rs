//! How long the proved reader takes, beside the original on the same cues.

use crate::tape::segments::each_letter;
use crate::tape::{ROOM, WHITE, proved, written};
use crate::timing;
use oxideav_core::Segment;
use reference::Original;
use std::hint::black_box;

/// A line for each cue: how long reading its tape takes, how long the original takes to flatten its
/// segments, and the first over the second.
pub fn table(original: &Original) -> String {
    let mut text = String::new();
    for (name, segments) in cues() {
        let tape = written::shortest(&segments);
        let mut workspace = vec![0; ROOM];
        text += &timing::line(
            &name,
            || proved::read(black_box(&tape), &mut workspace, WHITE),
            || original.flatten_segments(black_box(&segments), WHITE),
        );
    }
    text
}

fn cues() -> Vec<(String, Vec<Segment>)> {
    let mut cues = Vec::new();
    for count in [0, 64, 512, 4096] {
        cues.push((format!("{count} texts of a letter"), letters(count)));
    }
    let bold = |segment| Segment::Bold(vec![segment]);
    let each_bold = letters(4096).into_iter().map(bold).collect();
    cues.push(("4096 texts of a letter, each bold".to_string(), each_bold));
    let voices = (0..200).map(|_| voice(letters(10))).collect();
    cues.push(("200 voices of 10 such texts, in color".to_string(), voices));
    let words = (0..64).map(|_| text(64)).collect();
    cues.push(("64 texts of 64 letters".to_string(), words));
    cues.push(("one text of 4096 letters".to_string(), vec![text(4096)]));
    cues
}

fn letters(count: usize) -> Vec<Segment> {
    each_letter(&"A".repeat(count))
}

fn text(count: usize) -> Segment {
    Segment::Text("A".repeat(count))
}

fn voice(children: Vec<Segment>) -> Segment {
    Segment::Color {
        rgb: (255, 0, 0),
        children: vec![Segment::Voice {
            name: "Ana".to_string(),
            children,
        }],
    }
}

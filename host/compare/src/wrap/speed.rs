//! How long the proved Wrap takes from tape to lines, beside the original's flattening and wrapping
//! of the same cues.

use crate::tape::segments::{MOST_LETTERS, each_letter};
use crate::tape::{ROOM, WHITE, written};
use crate::timing;
use crate::wrap::proved;
use oxideav_core::Segment;
use reference::Original;
use std::hint::black_box;

/// A line for each cue, as [`timing::line`] writes it.
pub fn table(original: &Original) -> String {
    let mut text = String::new();
    for (name, limit, segments) in cues() {
        let tape = written::shortest(&segments);
        let mut workspace = vec![0; ROOM];
        text += &timing::line(
            &format!("wrap at {limit}, {name}"),
            || proved::wrap(black_box(&tape), &mut workspace, limit),
            || original.count_lines(black_box(&segments), WHITE, limit as usize),
        );
    }
    text
}

fn cues() -> Vec<(String, u32, Vec<Segment>)> {
    let mut cues = Vec::new();
    let mut add = |name: &str, limit, segments| cues.push((name.to_string(), limit, segments));
    for count in [64, 256, 512, 1024, MOST_LETTERS] {
        let words = repeated("ABCDE ", count);
        let each = each_letter(&words);
        add(&format!("{count} letters in words, a text each"), 40, each);
        let whole = vec![Segment::Text(words)];
        add(&format!("{count} letters in words, one text"), 40, whole);
    }
    for limit in [4, 4096] {
        let words = each_letter(&repeated("ABCDE ", MOST_LETTERS));
        add("4096 letters in words, a text each", limit, words);
    }
    for (name, unit) in [
        ("4096 letters in one word, a text each", "A"),
        ("4096 breaks", "\n"),
        ("4096 spaces, a text each", " "),
    ] {
        add(name, 40, each_letter(&repeated(unit, MOST_LETTERS)));
    }
    let bold = each_letter(&repeated("ABCDE ", MOST_LETTERS))
        .into_iter()
        .map(|segment| Segment::Bold(vec![segment]))
        .collect();
    add("4096 letters in words, each in its own bold", 40, bold);
    cues
}

fn repeated(unit: &str, count: usize) -> String {
    unit.chars().cycle().take(count).collect()
}

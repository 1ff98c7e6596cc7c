//! Document 01's own cases, and cues with as many letters as there may be.

use crate::count::Count;
use crate::fenced::Fenced;
use crate::random::Random;
use crate::tape::segments::{MOST_LETTERS, each_letter};
use crate::tape::{ROOM, limits};
use crate::wrap::check;
use crate::wrap::cues::{self, Cue};
use crate::wrap::lines::Line;
use oxideav_core::Segment;
use reference::Original;
use std::ops::Range;

/// Where the long cues are wrapped.
const LIMITS: [u32; 6] = [1, 2, 3, 40, 4095, 4096];

pub fn compare(original: &Original) -> Count {
    let mut count = Count::new("lines at the limits");
    let mut workspace = Fenced::workspace(&mut Random::new(0, 0), ROOM);
    for (limit, segments, lines) in cases() {
        let cue = cues::shortest(segments);
        count.check(check::cue(original, &cue, limit, &mut workspace).map(|_| ()));
        count.check(check::outcome(&cue.tape, limit, &mut workspace, &Ok(lines)));
    }
    for cue in long() {
        for limit in LIMITS {
            count.check(check::cue(original, &cue, limit, &mut workspace).map(|_| ()));
        }
    }
    count
}

/// The cues with as many letters as there may be, and the tape's own at its limits: every code point
/// that there is lies in one of these.
pub fn long() -> impl Iterator<Item = Cue> {
    let tapes = limits::admitted()
        .into_iter()
        .map(|(segments, tape)| Cue { segments, tape });
    full().chain(tapes)
}

/// Cues with as many letters as there may be.
pub fn full() -> impl Iterator<Item = Cue> {
    LONG.into_iter().map(|(unit, last)| {
        let mut text: String = unit.chars().cycle().take(MOST_LETTERS).collect();
        if let Some(last) = last {
            text.pop();
            text.push(last);
        }
        cues::shortest(each_letter(&text))
    })
}

/// What is repeated to 4,096 letters, and the letter that takes the last one's place.
const LONG: [(&str, Option<char>); 17] = [
    ("A", None),
    ("ABCDE ", None),
    ("A ", None),
    (" A", None),
    ("A\t", None),
    (" ", None),
    (" ", Some('A')),
    ("\t", None),
    ("\t", Some('A')),
    ("\n", None),
    // 4,095 blank lines.
    ("\n", Some('A')),
    ("\u{1}", None),
    ("\u{1}", Some('A')),
    ("\u{1}A", None),
    ("A\u{85}\u{9f}", None),
    // At 1 column as many lines as letters, a third of them blank.
    ("AA\n", None),
    ("\u{a0}\u{10ffff} ", None),
];

type Case = (u32, Vec<Segment>, Vec<Line>);

/// The cases a to g, the example of the program `lines`, and what is due of each.
fn cases() -> Vec<Case> {
    let text = |limit, text, lines| (limit, each_letter(text), lines);
    let bold_nothing = Segment::Bold(vec![Segment::Text(String::new())]);
    let mut g = each_letter("X A");
    g.push(bold_nothing);
    g.extend(each_letter("B"));
    vec![
        text(4, "", vec![]),
        text(4, "ABCD", vec![line(0..4, 4)]),
        text(4, "ABCDE", vec![line(0..4, 4), line(4..5, 1)]),
        text(
            4,
            "ABCDEFGH\nI",
            vec![line(0..4, 4), line(4..8, 4), line(8..8, 0), line(9..10, 1)],
        ),
        text(4, "AB\u{1}CDE", vec![line(0..4, 3), line(4..6, 2)]),
        text(2, "A  B", vec![line(0..1, 1), line(3..4, 1)]),
        (3, g, vec![line(0..3, 3), line(3..4, 1)]),
        text(3, "X AB", vec![line(0..1, 1), line(2..4, 2)]),
        text(
            4,
            "ABCDE F\nG",
            vec![line(0..4, 4), line(4..7, 3), line(8..9, 1)],
        ),
    ]
}

fn line(letters: Range<usize>, columns: usize) -> Line {
    Line {
        letters: letters.collect(),
        columns,
    }
}

//! Document 01's own cases, those of letters without ink, and tapes as long and as deep as there may be.

use crate::count::Count;
use crate::draw::cases::{self, text, translucent};
use crate::draw::due;
use crate::draw::frame::{Drawn, Frame};
use crate::draw::settings::Settings;
use crate::tape::ROOM;
use crate::wrap::limits;
use reference::Original;

/// Letters on a line, an outline, and how many strokes they have with it: case l, and what S-6 asks of
/// letters without ink, with a column and without.
const STROKES: [(&str, u32, usize); 12] = [
    ("AB", 0, 2),
    ("AB", 1, 18),
    ("AB", 2, 34),
    ("AB", 9, 34),
    ("A\u{1}B", 1, 18),
    ("A B", 1, 18),
    ("A\tB", 2, 34),
    ("\u{7f}A\u{9f}", 0, 1),
    ("\u{a0}", 1, 0),
    ("\u{ad}", 2, 0),
    ("\u{a1}\u{ac}\u{ae}~", 1, 36),
    ("\u{100}\u{1ad}", 0, 2),
];

pub fn compare(original: &Original) -> Count {
    let mut count = Count::new("tapes of Draw at the limits");
    for cue in limits::long() {
        cases::check(original, &mut count, cue, [tall(), wide(), narrow()]);
    }
    for (words, outline, strokes) in STROKES {
        count.check(answer(original, words, outline, strokes));
    }
    count
}

/// All lines of 4,096 letters in words.
pub fn wide() -> Settings {
    Settings {
        alignment: 1,
        outline: 0,
        ..translucent(1000, 600)
    }
}

/// One letter a line, and few of the lines.
pub fn narrow() -> Settings {
    Settings {
        outline: 2,
        ..translucent(9, 40)
    }
}

/// Lines so far apart that the first of many stand four million rows above the picture.
pub fn tall() -> Settings {
    Settings {
        line_height: 1024,
        alignment: 4,
        ..translucent(40, 1100)
    }
}

/// Holds Draw to strokes that are said here, and not counted.
fn answer(original: &Original, words: &str, outline: u32, strokes: usize) -> Result<(), String> {
    let settings = Settings {
        outline,
        ..translucent(32, 16)
    };
    let frame = Frame {
        settings,
        tape: text(words).tape,
        room: ROOM,
        bytes: vec![0xa5; settings.area()],
    };
    let due = due::of_frame(original, &frame);
    frame.hold(&due.map(|due| Drawn { strokes, ..due }))
}

//! Cases in which plausible readings of S-10 differ, and as many strokes as there can be: 4,096 letters
//! with ink, each with the most outline.

use crate::count::Count;
use crate::draw::cases::translucent;
use crate::draw::due;
use crate::draw::frame::{Drawn, Frame};
use crate::draw::limits::wide;
use crate::draw::settings::{House, OUTLINE_CAP_MAX, SIDE_MARGIN_MAX, SLANT_MAX, Settings};
use crate::tape::ROOM;
use crate::tape::segments::{MOST_LETTERS, each_letter};
use crate::work::steps;
use crate::wrap::cues::{self, Cue};
use oxideav_core::Segment;
use reference::Original;

/// Width, alignment, outline and the house settings of a picture; upright letters and italic ones behind
/// them; and how many strokes they have.
type Case = (u32, u32, u32, [u32; 3], [&'static str; 2], usize);

const CASES: [Case; 6] = [
    // The margin enters neither the column limit nor the center: one line.
    (16, 0, 0, [16, 2, 2], ["AB", ""], 2),
    // A line may begin left of the picture.
    (8, 3, 0, [1, 2, 2], ["A", ""], 1),
    // Under the base line halves are rounded away from zero too.
    (24, 1, 0, [8, 8, 2], ["", "\u{100}"], 1),
    // With no slant italic is upright, but a run of its own: B is on the second line.
    (24, 1, 0, [8, 0, 2], ["X A", "B"], 3),
    // The ring is at the cap's distance, and not filled.
    (40, 1, 9, [16, 2, 3], ["A", ""], 25),
    (40, 1, 9, [16, 2, 0], ["A", ""], 1),
];

const MOST: usize = MOST_LETTERS * 33;

/// By Draw, whose answers are said here and not counted, and the most strokes by a job too.
pub fn compare(original: &Original) -> Count {
    let mut count = Count::new("house settings at the limits");
    for (width, alignment, outline, house, words, strokes) in CASES {
        let settings = Settings {
            alignment,
            outline,
            house: numbers(house),
            ..translucent(width, 40)
        };
        count.check(answer(original, settings, &letters(words), strokes));
    }
    let most = Settings {
        outline: OUTLINE_CAP_MAX,
        house: numbers([SIDE_MARGIN_MAX, SLANT_MAX, OUTLINE_CAP_MAX]),
        ..wide()
    };
    count.check(answer(original, most, &full(), MOST));
    count.check(steps::long(original, most, full()));
    count
}

fn numbers([side_margin, slant, outline_cap]: [u32; 3]) -> House {
    House {
        side_margin,
        slant,
        outline_cap,
    }
}

fn letters([upright, italic]: [&str; 2]) -> Cue {
    let mut segments = each_letter(upright);
    segments.push(Segment::Italic(each_letter(italic)));
    cues::shortest(segments)
}

/// As many italic letters as there may be, that reach under the base line.
fn full() -> Cue {
    letters(["", &",".repeat(MOST_LETTERS)])
}

fn answer(
    original: &Original,
    settings: Settings,
    cue: &Cue,
    strokes: usize,
) -> Result<(), String> {
    let frame = Frame {
        settings,
        tape: cue.tape.clone(),
        room: ROOM,
        bytes: vec![0xa5; settings.area()],
    };
    let due = due::of_frame(original, &frame);
    frame.hold(&due.map(|due| Drawn { strokes, ..due }))
}

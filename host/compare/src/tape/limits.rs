//! Tapes at the limits of document 01 and just past them.

use crate::count::Count;
use crate::random::Random;
use crate::refusal::Refusal;
use crate::tape::check::check;
use crate::tape::letters::Outcome;
use crate::tape::segments::{DEEPEST, MOST_LETTERS};
use crate::tape::{ROOM, WHITE, flatten, written};
use oxideav_core::Segment;
use reference::Original;

pub fn compare(original: &Original) -> Count {
    let mut count = Count::new("tapes at the limits");
    for (segments, bytes) in admitted() {
        let expected = Ok(flatten(original, &segments, WHITE));
        count.check(check(&bytes, WHITE, ROOM, &expected));
        count.check(check(&bytes, WHITE, ROOM + 1, &expected));
        for room in [0, 1, 8, ROOM / 2, ROOM - 1] {
            count.check(check(&bytes, WHITE, room, &refused(11, 0)));
        }
    }
    for (bytes, number, place) in stopped() {
        count.check(check(&bytes, WHITE, ROOM, &refused(number, place)));
    }
    count
}

fn refused(number: u32, place: usize) -> Outcome {
    Err(Refusal { number, place })
}

/// Segments, and their tape.
pub fn admitted() -> Vec<(Vec<Segment>, Vec<u8>)> {
    let mut random = Random::new(0, 0);
    let mut cases = vec![(Vec::new(), Vec::new())];
    let mut add = |segments: Vec<Segment>| {
        let tape = written::tape(&mut random, &segments);
        cases.push((segments, tape));
    };
    // Every code point that there is, 4,096 at a time.
    let all: Vec<char> = (0..=0x10_ffff).filter_map(char::from_u32).collect();
    for letters in all.chunks(MOST_LETTERS) {
        add(vec![Segment::Text(letters.iter().collect())]);
    }
    for wrap in OPENERS {
        add(nested(wrap, DEEPEST));
    }
    let breaks = || (0..MOST_LETTERS).map(|_| Segment::LineBreak);
    add(breaks().collect());
    // Behind 4,096 letters, what adds none.
    let none = [
        Segment::Timestamp {},
        Segment::Text(String::new()),
        Segment::Bold(Vec::new()),
    ];
    add(breaks().chain(none).collect());
    add(vec![voice(MOST_LETTERS - 2)]);
    add(vec![text(MOST_LETTERS - 2), voice(0)]);
    // As many letters and as many bytes as there may be.
    let longest: Vec<u8> = [0x04, 0x01, 0xf6, 0x00].repeat(MOST_LETTERS);
    let emoji = "\u{1f600}".repeat(MOST_LETTERS);
    cases.push((vec![Segment::Text(emoji)], longest));
    // And as many bytes without a letter.
    cases.push((Vec::new(), vec![0x0b; 16_384]));
    let empty = (0..16_384).map(|_| Segment::Text(String::new())).collect();
    cases.push((empty, vec![0x01; 16_384]));
    cases
}

/// A tape, and the number and place of its refusal.
pub fn stopped() -> Vec<(Vec<u8>, u32, usize)> {
    let mut cases = vec![
        (vec![0x06], 3, 1),
        (vec![0x00], 3, 0),
        (vec![0x02], 2, 0),
        (vec![0x04, 0x00, 0xd8, 0x00], 4, 0),
        (vec![0x03, 0xd8, 0x00], 4, 0),
        (vec![0x03, 0xdf, 0xff], 4, 0),
        (vec![0x04, 0x11, 0x00, 0x00], 4, 0),
        (vec![0x04, 0xff, 0xff, 0xff], 4, 0),
        (vec![0x0c], 1, 0),
        (vec![0xff], 1, 0),
        (vec![0x09, 0x02, 0x41], 3, 3),
        (vec![0x09, 0x02, 0x41, 0x00], 3, 4),
        (vec![0x0b; 16_385], 10, 0),
        (vec![0x0c; 16_385], 10, 0),
        (vec![0x05; MOST_LETTERS + 1], 6, MOST_LETTERS),
    ];
    let full = vec![0x05; MOST_LETTERS];
    for letter in [&[0x02, 0x41][..], &[0x03, 0, 0x41], &[0x04, 0, 0, 0x41]] {
        cases.push(([&full, letter].concat(), 6, MOST_LETTERS));
    }
    // A surrogate is 4 before it is 6.
    let surrogate = [&full[..], &[0x03, 0xd8, 0x00]].concat();
    cases.push((surrogate, 4, MOST_LETTERS));
    // ": " is two letters, at the 00 of the name.
    for letters in [MOST_LETTERS - 1, MOST_LETTERS] {
        let tape = [&full[..letters], &[0x09, 0x00, 0x00]].concat();
        cases.push((tape, 6, letters + 1));
    }
    for opener in [0x06, 0x07, 0x08, 0x09, 0x0a] {
        // Too deep comes before missing operands, and is not said in a name.
        let deep = [&[0x0a; DEEPEST][..], &[opener]].concat();
        cases.push((deep, 5, DEEPEST));
        cases.push((vec![0x09, opener], 7, 1));
    }
    for other in [0x01, 0x05, 0x0b] {
        cases.push((vec![0x09, other], 7, 1));
    }
    cases.push((vec![0x09, 0x0c], 1, 1));
    cases
}

fn text(letters: usize) -> Segment {
    Segment::Text("A".repeat(letters))
}

fn voice(letters: usize) -> Segment {
    Segment::Voice {
        name: "N".repeat(letters),
        children: Vec::new(),
    }
}

type Opener = fn(Vec<Segment>) -> Segment;

const OPENERS: [Opener; 9] = [
    Segment::Bold,
    Segment::Italic,
    Segment::Underline,
    Segment::Strike,
    |children| Segment::Color {
        rgb: (1, 2, 3),
        children,
    },
    |children| Segment::Font { children },
    |children| Segment::Voice {
        name: "N".to_string(),
        children,
    },
    |children| Segment::Class { children },
    |children| Segment::Karaoke { children },
];

/// Lists in each other, with a letter before, inside and behind each.
fn nested(opener: Opener, depth: usize) -> Vec<Segment> {
    let mut segments = vec![text(1)];
    for _ in 0..depth {
        segments = vec![text(1), opener(segments), text(1)];
    }
    segments
}

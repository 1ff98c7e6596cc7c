//! Random segments within the limits of a tape.

use crate::random::Random;
use oxideav_core::Segment;

/// The deepest list, and the most letters.
pub const DEEPEST: usize = 16;
pub const MOST_LETTERS: usize = 4096;

/// Few colors, so that styles are often equal: white among them, which is the usual default.
const COLORS: [[u8; 3]; 4] = [[255; 3], [255, 0, 0], [0, 0, 0], [1, 2, 3]];
const ALPHAS: [u8; 3] = [255, 0, 128];

/// Letters at the ends of what each command holds, beside the surrogates, and those that wrapping
/// treats in a way of their own.
const LETTERS: [u32; 20] = [
    0x00, 0x01, 0x09, 0x0a, 0x0d, 0x1f, 0x20, 0x41, 0x7f, 0x85, 0xa0, 0xff, 0x100, 0x2028, 0xd7ff,
    0xe000, 0xffff, 0x1_0000, 0x1_f600, 0x10_ffff,
];

pub fn color(random: &mut Random) -> [u8; 4] {
    let [red, green, blue] = random.pick(&COLORS);
    [red, green, blue, random.pick(&ALPHAS)]
}

/// What is left to spend.
struct Left {
    letters: usize,
    segments: usize,
}

/// A few segments mostly, now and then many or deep ones. Their tape has at most six bytes a
/// segment and four a letter, which is under 16,384.
pub fn random(random: &mut Random) -> Vec<Segment> {
    let (letters, segments) = match random.within(0..=199) {
        0 => (2500, 800),
        1..=9 => (300, 100),
        _ => (24, 24),
    };
    let depth = if random.one_in(8) { DEEPEST } else { 4 };
    list(random, depth, &mut Left { letters, segments })
}

/// A text, or a break, for each letter, which is what a tape's commands stand for.
pub fn each_letter(text: &str) -> Vec<Segment> {
    text.chars()
        .map(|ch| match ch {
            '\n' => Segment::LineBreak,
            _ => Segment::Text(ch.to_string()),
        })
        .collect()
}

fn list(random: &mut Random, depth: usize, left: &mut Left) -> Vec<Segment> {
    let most = if left.segments > 50 { 60 } else { 5 };
    let mut segments = Vec::new();
    for _ in 0..random.within(0..=most) {
        if left.segments == 0 {
            break;
        }
        left.segments -= 1;
        segments.push(segment(random, depth, left));
    }
    segments
}

fn segment(random: &mut Random, depth: usize, left: &mut Left) -> Segment {
    // Where lists may lie deep, most segments open one.
    let opens = if depth > 4 { 4 } else { 2 };
    if depth > 0 && !random.one_in(opens) {
        return opener(random, depth - 1, left);
    }
    match random.within(0..=9) {
        0 => Segment::Text(String::new()),
        1 => Segment::Timestamp {},
        2 if left.letters > 0 => {
            left.letters -= 1;
            Segment::LineBreak
        }
        3 => Segment::Raw(text(random, left)),
        _ => Segment::Text(text(random, left)),
    }
}

fn opener(random: &mut Random, depth: usize, left: &mut Left) -> Segment {
    let kind = random.within(0..=8);
    if kind == 0 && left.letters >= 2 {
        left.letters -= 2;
        let name = text(random, left);
        return Segment::Voice {
            name,
            children: list(random, depth, left),
        };
    }
    let children = list(random, depth, left);
    group(random, kind, children)
}

/// The segment of one of nine kinds that holds a list and no name.
pub fn group(random: &mut Random, kind: i64, children: Vec<Segment>) -> Segment {
    match kind {
        0 => Segment::Font { children },
        1 => Segment::Bold(children),
        2 => Segment::Italic(children),
        3 => Segment::Underline(children),
        4 => Segment::Strike(children),
        5 => Segment::Class { children },
        6 => Segment::Karaoke { children },
        _ => {
            let [red, green, blue] = random.pick(&COLORS);
            Segment::Color {
                rgb: (red, green, blue),
                children,
            }
        }
    }
}

fn text(random: &mut Random, left: &mut Left) -> String {
    let most = if left.letters > 100 { 40 } else { 4 };
    let count = (random.within(0..=most) as usize).min(left.letters);
    left.letters -= count;
    (0..count).map(|_| letter(random)).collect()
}

/// A letter of the list, or any other.
fn letter(random: &mut Random) -> char {
    let code = if random.one_in(2) {
        random.pick(&LETTERS)
    } else {
        random.within_u32(0..=0x10_ffff)
    };
    char::from_u32(code).unwrap_or('\u{fffd}')
}

//! Random settings, cues and buffers.

use crate::draw::settings::{ALIGNMENTS, GLYPH_MODES, House, LINE_HEIGHT_MAX, SIDE_MAX, Settings};
use crate::random::Random;
use crate::tape::segments;
use crate::wrap::cues::{self, Cue};
use crate::{curly, inkless};
use std::ops::RangeInclusive;

/// What makes a letter.
type Make = fn(&mut Random) -> char;

/// What many letters of a cue may be.
const MANY: [Make; 3] = [letter, curly::letter, inkless::letter];

/// Settings within their ranges, of which the house settings are the original's.
pub fn settings(random: &mut Random) -> Settings {
    let (width, height) = size(random);
    sized(random, width, height)
}

/// Such settings of a picture of this size.
pub fn sized(random: &mut Random, width: u32, height: u32) -> Settings {
    Settings {
        width,
        height,
        // Often one of the lists' colors, so that runs merge.
        default_color: if random.one_in(3) {
            segments::color(random)
        } else {
            random.color()
        },
        outline_color: random.color(),
        line_height: line_height(random),
        bottom_margin: margin(random, height),
        outline: outline(random),
        alignment: random.pick(&ALIGNMENTS),
        glyph_mode: random.pick(&GLYPH_MODES),
        house: House::ORIGINAL,
    }
}

/// Mostly small, so that edges are met often; often narrower than two cells or lower than a letter;
/// now and then as wide or as tall as there may be. A third has whole cells.
fn size(random: &mut Random) -> (u32, u32) {
    let (width, height) = match random.within(0..=3999) {
        0 => (SIDE_MAX, SIDE_MAX),
        1..=4 => (SIDE_MAX, 60),
        5..=8 => (100, SIDE_MAX),
        9..=100 => (400, 300),
        101..=500 => (16, 60),
        501..=700 => (100, 5),
        _ => (100, 80),
    };
    let cell = if random.one_in(3) { 8 } else { 1 };
    let side = |random: &mut Random, most| cell * random.within_u32(0..=most / cell);
    (side(random, width), side(random, height))
}

fn line_height(random: &mut Random) -> u32 {
    match random.within(0..=15) {
        0 => LINE_HEIGHT_MAX,
        1 => random.within_u32(0..=LINE_HEIGHT_MAX),
        2 => 0,
        3..=8 => random.within_u32(14..=18),
        _ => random.within_u32(0..=40),
    }
}

/// Small mostly, often nearly the height or more, now and then any.
fn margin(random: &mut Random, height: u32) -> u32 {
    match random.within(0..=31) {
        0 => u32::MAX,
        1 => random.within_u32(0..=u32::MAX),
        2..=5 => random.within_u32(height.saturating_sub(20)..=height + 2),
        6..=15 => 0,
        _ => random.within_u32(0..=16),
    }
}

fn outline(random: &mut Random) -> u32 {
    match random.within(0..=15) {
        0 => u32::MAX,
        1 => random.within_u32(0..=u32::MAX),
        2 => random.pick(&[3, 9]),
        3..=6 => 0,
        7..=10 => 1,
        _ => 2,
    }
}

/// A short cue mostly, of which more is seen.
pub fn cue(random: &mut Random) -> Cue {
    match random.within(0..=19) {
        0 => cues::random(random),
        1..=3 => cues::sized(random, 0..=12),
        4..=7 => cues::sized(random, 1..=40),
        8 => cues::sized(random, 1..=100),
        9..=14 => legible(random, 1..=12),
        _ => legible(random, 1..=60),
    }
}

/// A cue of so many letters, of which most have a glyph of their own; in a third many, or all, are
/// curly, and in a third many, or nearly all, have no ink.
pub fn legible(random: &mut Random, letters: RangeInclusive<i64>) -> Cue {
    let count = random.within(letters);
    let many = random.pick(&MANY);
    let share = random.pick(&[1, 2, 3]);
    let mut next = || {
        let make = if random.one_in(share) { many } else { letter };
        make(random)
    };
    let text: Vec<char> = (0..count).map(|_| next()).collect();
    cues::of_text(random, &text)
}

fn letter(random: &mut Random) -> char {
    let codes = match random.within(0..=31) {
        0 => 0x0a..=0x0a,
        1 => 0x00..=0x1f,
        2 => 0xff..=0x101,
        3 => 0x80..=0x10_ffff,
        4..=6 => 0x20..=0x20,
        _ => 0x21..=0xff,
    };
    char::from_u32(random.within_u32(codes)).unwrap_or(char::MAX)
}

/// Random bytes: a picture's, and in half of the cases some more behind it.
pub fn buffer(random: &mut Random, area: usize) -> Vec<u8> {
    let more = match random.within(0..=7) {
        0..=3 => 0,
        4..=6 => random.within(1..=16) as usize,
        _ => random.within(1..=4096) as usize,
    };
    let mut bytes = vec![0; area + more];
    random.fill(&mut bytes);
    bytes
}

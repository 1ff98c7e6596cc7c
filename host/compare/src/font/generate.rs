//! Random pictures and strokes.

use crate::curly;
use crate::font::picture::{Picture, Stroke, fence};
use crate::font::proved::{ORIGIN, PLACE_END, PLACE_MIN, SIDE_MAX};
use crate::random::Random;
use reference::settings::{GLYPH_MODES, SLANT_MAX};
use std::ops::RangeInclusive;

/// The columns where a stroke may start and the rows where its base line may stand, counted from
/// the picture's corner.
const PLACES: RangeInclusive<i64> =
    PLACE_MIN as i64 - ORIGIN as i64..=(PLACE_END - 1 - ORIGIN) as i64;

pub fn picture(random: &mut Random) -> Picture {
    let (width, height) = size(random);
    let mut bytes = vec![0; 4 * width as usize * height as usize];
    if !random.one_in(4) {
        random.fill(&mut bytes);
    }
    let further = if random.one_in(2) {
        0
    } else {
        random.within_u32(0..=fence(width) as u32) as usize
    };
    Picture {
        width,
        height,
        bytes,
        strokes: strokes(random, width, height),
        cuts: cuts(random, height),
        part_by_part: random.one_in(2),
        further,
    }
}

/// Mostly small, so that edges are met often; now and then as wide or as tall as a part may be,
/// and taller, up to a part of the most rows at the last row where a part starts.
fn size(random: &mut Random) -> (u32, u32) {
    let (width, height) = match random.within(0..=499) {
        0 => (SIDE_MAX, 24),
        1 => (12, 2 * SIDE_MAX),
        2..=20 => (200, 200),
        _ => (40, 40),
    };
    (random.within_u32(0..=width), random.within_u32(0..=height))
}

/// Cuts the rows into one to six parts, some of them empty.
fn cuts(random: &mut Random, height: u32) -> Vec<u32> {
    let mut cuts = vec![0, height];
    for _ in 0..random.within(0..=4) {
        cuts.push(random.within_u32(0..=height.min(SIDE_MAX)));
    }
    if height > SIDE_MAX {
        cuts.push(random.within_u32(height - SIDE_MAX..=SIDE_MAX));
    }
    cuts.sort_unstable();
    cuts
}

/// One to six strokes, of which about half lie over the one before, as an outline does.
fn strokes(random: &mut Random, width: u32, height: u32) -> Vec<Stroke> {
    let mut strokes: Vec<Stroke> = Vec::new();
    for _ in 0..random.within(1..=6) {
        let mut next = stroke(random, width, height);
        if let Some(last) = strokes.last()
            && random.one_in(2)
        {
            next.x = near(random, last.x);
            next.y = near(random, last.y);
        }
        strokes.push(next);
    }
    strokes
}

fn near(random: &mut Random, place: i32) -> i32 {
    let moved = i64::from(place) + random.within(-2..=2);
    moved.clamp(*PLACES.start(), *PLACES.end()) as i32
}

pub fn stroke(random: &mut Random, width: u32, height: u32) -> Stroke {
    let (width, height) = (i64::from(width), i64::from(height));
    Stroke {
        mode: random.pick(&GLYPH_MODES),
        ch: letter(random),
        bold: random.one_in(2),
        slant: slant(random),
        color: random.color(),
        // A glyph is eight columns wide, of which the slant moves some right by up to six and others
        // left by one; it has twelve rows over its base line and four from there on.
        x: place(random, -13..=width),
        y: place(random, -3..=height + 11),
    }
}

/// Often none, often that of the original's italic.
fn slant(random: &mut Random) -> u32 {
    match random.within(0..=5) {
        0 | 1 => 0,
        2 | 3 => 2,
        _ => random.within_u32(0..=SLANT_MAX),
    }
}

/// A place near either end of those where the glyph can be seen, anywhere between, or far off.
fn place(random: &mut Random, seen: RangeInclusive<i64>) -> i32 {
    let (first, last) = seen.into_inner();
    let place = match random.within(0..=31) {
        0 => *PLACES.start(),
        1 => *PLACES.end(),
        2 => random.within(PLACES),
        3..=11 => random.within(first - 4..=first + 16),
        12..=20 => random.within(last - 16..=last + 4),
        _ => random.within(first..=last),
    };
    place as i32
}

/// Mostly a letter of the table that is not blank, often one that glyph mode 1 replaces.
fn letter(random: &mut Random) -> char {
    if random.one_in(6) {
        return curly::letter(random);
    }
    let codes = match random.within(0..=11) {
        0 => 0..=0x10ffff,
        1..=3 => 0..=0x100,
        _ => 0x21..=0xff,
    };
    // A surrogate is no letter.
    char::from_u32(random.within_u32(codes)).unwrap_or(char::MAX)
}

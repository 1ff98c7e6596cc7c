//! Compares pictures that the original and the proved font drew.

use crate::count::Count;
use crate::font::generate;
use crate::font::picture::{Picture, Stroke};
use crate::font::proved::{ORIGIN, PLACE_END, PLACE_MIN, SIDE_MAX};
use crate::random::Random;
use reference::Original;
use reference::settings::{House, SLANT_MAX};

/// Bold and italic, each on and off.
pub const STYLES: [(bool, bool); 4] = [(false, false), (false, true), (true, false), (true, true)];

/// Bold on and off, each with every slant.
pub fn slanted() -> impl Iterator<Item = (bool, u32)> {
    let slants = |bold| (0..=SLANT_MAX).map(move |slant| (bold, slant));
    [false, true].into_iter().flat_map(slants)
}

/// The slant of the original's italic.
const ITALIC: u32 = House::ORIGINAL.slant;
const OPAQUE: [u8; 4] = [255, 255, 255, 255];
pub const HALF: [u8; 4] = [200, 100, 50, 128];

/// Every glyph in both weights with every slant, whole inside a picture, opaque and half transparent.
pub fn every_glyph(original: &Original) -> Count {
    let mut count = Count::new("glyphs inside a picture");
    for ch in '\0'..='\u{100}' {
        for (bold, slant) in slanted() {
            for color in [OPAQUE, HALF] {
                let stroke = Stroke {
                    mode: 0,
                    ch,
                    bold,
                    slant,
                    color,
                    x: 8,
                    y: 16,
                };
                let picture = filled(26, 24, vec![stroke], vec![0, 24]);
                count.check(picture.compare(original).map(|_| ()));
            }
        }
    }
    count
}

/// Every alpha of a stroke over every alpha of a picture.
pub fn every_alpha(original: &Original) -> Count {
    let mut count = Count::new("alphas of a stroke, each over every alpha of a picture");
    let covered = side_by_side(OPAQUE).by_original(original);
    count.check(match covered.chunks(4).position(|pixel| pixel != OPAQUE) {
        None => Ok(()),
        Some(column) => Err(format!("the strokes do not meet column {column}")),
    });
    for alpha in 0..=255 {
        let [red, green, blue, _] = Random::new(0, u64::from(alpha)).color();
        let picture = side_by_side([red, green, blue, alpha]);
        count.check(picture.compare(original).map(|_| ()));
    }
    count
}

/// A row of 256 pixels, each of another alpha, and strokes side by side that each light six columns
/// of it.
fn side_by_side(color: [u8; 4]) -> Picture {
    let strokes = (0..43).map(|number| Stroke {
        mode: 0,
        ch: '_',
        bold: false,
        slant: 0,
        color,
        x: 6 * number - 1,
        y: 0,
    });
    let bytes = (0..=255).flat_map(|alpha| [alpha, 255 - alpha, alpha ^ 0x55, alpha]);
    Picture {
        width: 256,
        height: 1,
        bytes: bytes.collect(),
        strokes: strokes.collect(),
        cuts: vec![0, 1],
        part_by_part: false,
        further: 0,
    }
}

/// Pictures, parts and places at the limits that the proved font still takes.
pub fn limits(original: &Original) -> Count {
    let mut count = Count::new("pictures at the limits");
    let sizes = [
        (0, 0, vec![0, 0]),
        (0, 20, vec![0, 20]),
        (20, 0, vec![0, 0]),
        (SIDE_MAX, 20, vec![0, 20]),
        (12, SIDE_MAX, vec![0, SIDE_MAX]),
        (SIDE_MAX, SIDE_MAX, vec![0, SIDE_MAX]),
        (12, SIDE_MAX + 20, vec![0, SIDE_MAX, SIDE_MAX + 20]),
        (3, 2 * SIDE_MAX, vec![0, SIDE_MAX, 2 * SIDE_MAX]),
    ];
    for (width, height, cuts) in sizes {
        let picture = filled(width, height, corners(width, height), cuts);
        count.check(picture.compare(original).map(|_| ()));
    }
    let (least, most) = (
        PLACE_MIN as i32 - ORIGIN as i32,
        (PLACE_END - 1 - ORIGIN) as i32,
    );
    for (x, y) in [
        (least, 12),
        (most, 12),
        (4, least),
        (4, most),
        (least, least),
    ] {
        let picture = filled(
            16,
            16,
            vec![solid('H', x, y, SLANT_MAX), solid('H', 4, 12, ITALIC)],
            vec![0, 16],
        );
        count.check(picture.compare(original).map(|_| ()));
    }
    count
}

/// Random pictures, numbered from 0.
pub fn random(original: &Original, seed: u64, pictures: u64) -> Count {
    let mut count = Count::new("random pictures");
    let mut changed = 0;
    for number in 0..pictures {
        let picture = generate::picture(&mut Random::new(seed, number));
        let result = picture.compare(original);
        changed += u64::from(result == Ok(true));
        count.check(
            result
                .map(|_| ())
                .map_err(|found| format!("seed {seed}, picture {number}: {found}")),
        );
    }
    println!(
        "random pictures: {changed} of those that agree differ from what they were drawn over"
    );
    count
}

/// A picture over bytes that are neither all alike nor blank.
pub fn filled(width: u32, height: u32, strokes: Vec<Stroke>, cuts: Vec<u32>) -> Picture {
    let mut bytes = vec![0; 4 * width as usize * height as usize];
    Random::new(u64::from(width), u64::from(height)).fill(&mut bytes);
    Picture {
        width,
        height,
        bytes,
        strokes,
        cuts,
        part_by_part: false,
        further: 0,
    }
}

/// Strokes that lie over the four corners of a picture, with the original's slant and the strongest.
fn corners(width: u32, height: u32) -> Vec<Stroke> {
    let (right, bottom) = (width as i32 - 4, height as i32 + 4);
    let slanted = |slant| {
        [
            solid('Å', -4, 6, slant),
            solid('H', right, 6, slant),
            solid('g', -4, bottom, slant),
            solid('\u{100}', right, bottom, slant),
        ]
    };
    [ITALIC, SLANT_MAX].into_iter().flat_map(slanted).collect()
}

fn solid(ch: char, x: i32, y: i32, slant: u32) -> Stroke {
    Stroke {
        mode: 0,
        ch,
        bold: true,
        slant,
        color: HALF,
        x,
        y,
    }
}

//! Compares strokes of which some rows are drawn, from the lowest up.

use crate::count::Count;
use crate::curly::REPLACED;
use crate::font::picture::{Picture, Stroke};
use crate::font::proved;
use crate::font::strokes::{HALF, filled, slanted};
use reference::Original;

/// Room for a glyph, a slanted one too.
const WIDTH: u32 = 18;
const HEIGHT: u32 = 20;
/// Over the left side, inside, and over the right side.
const COLUMNS: [i32; 3] = [-4, 2, 14];
/// Over the upper side, inside, and over the lower side.
const BASE_LINES: [i32; 3] = [5, 13, 20];
/// All rows lent at once, and in two parts of which a glyph has some rows each.
const CUTS: [&[u32]; 2] = [&[0, HEIGHT], &[0, 9, HEIGHT]];
/// The rows of a glyph from its base line down.
const BELOW: i64 = 4;

/// Every glyph in both weights with every slant, and those of mode 1 for the letters that it replaces,
/// inside a picture and clipped at each side and corner: after each number of its rows, and after more
/// than it has.
pub fn compare(original: &Original) -> Count {
    let mut count = Count::new("strokes after some of their rows");
    let curly = REPLACED.map(|ch| (1, ch));
    for (mode, ch) in ('\0'..='\u{100}').map(|ch| (0, ch)).chain(curly) {
        for (bold, slant) in slanted() {
            for (x, y) in COLUMNS.iter().flat_map(|x| BASE_LINES.map(|y| (*x, y))) {
                let stroke = Stroke {
                    mode,
                    ch,
                    bold,
                    slant,
                    color: HALF,
                    x,
                    y,
                };
                every_number(original, stroke, &mut count);
            }
        }
    }
    count
}

fn every_number(original: &Original, stroke: Stroke, count: &mut Count) {
    let base = stroke.y;
    let mut picture = filled(WIDTH, HEIGHT, vec![stroke], Vec::new());
    let whole = picture.by_original(original);
    for rows in (0..=16).chain([17, u32::MAX]) {
        let expected = after(rows, base, &picture.bytes, &whole);
        for cuts in CUTS {
            picture.cuts = cuts.to_vec();
            count.check(held(&picture, &expected, rows));
        }
    }
}

/// What a picture is after so many rows of a stroke on a base line: from the highest of these down as
/// the original's whole stroke leaves it, and above as it was.
fn after(rows: u32, base: i32, before: &[u8], whole: &[u8]) -> Vec<u8> {
    let highest = i64::from(base) + BELOW - i64::from(rows);
    let above = highest.clamp(0, i64::from(HEIGHT)) as usize * 4 * WIDTH as usize;
    [&before[..above], &whole[above..]].concat()
}

fn held(picture: &Picture, expected: &[u8], rows: u32) -> Result<(), String> {
    let drawn = picture.hold(expected, |bytes, part, stroke| {
        proved::stroke_rows(bytes, part, stroke, rows)
    });
    drawn.map_err(|found| format!("after {rows} rows: {found}"))
}

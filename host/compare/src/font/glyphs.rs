//! Compares the rows of glyphs.

use crate::count::Count;
use crate::curly::{BESIDE, PLAIN, REPLACED};
use crate::font::proved;
use reference::{Original, replaced};

/// Code points past the table: each byte length of UTF-8, letters whose low bits are an `A`, both
/// sides of the surrogates and the last ones; then codes that are no letter.
const PAST: [u32; 26] = [
    0x0100,
    0x0101,
    0x0141,
    0x017f,
    0x03a9,
    0x07ff,
    0x0800,
    0x2028,
    0x8041,
    0xd7ff,
    0xe000,
    0xfffd,
    0xfffe,
    0xffff,
    0x1_0000,
    0x1_0041,
    0x1_f600,
    0xf_ffff,
    0x10_0041,
    0x10_ffff,
    0xd800,
    0xdfff,
    0x11_0000,
    0x8000_0000,
    0xffff_ff41,
    0xffff_ffff,
];

/// A glyph that is asked for.
#[derive(Clone, Copy)]
struct Asked {
    mode: u32,
    code: u32,
    bold: bool,
}

/// The glyph modes, and numbers that are none: a glyph is then mode 0's, and no call draws it.
const MODES: [u32; 5] = [0, 1, 2, 257, u32::MAX];

/// Every row of both tables, the rows of the missing glyph, and the code points past the table, in
/// every mode; and for every glyph asked for, that nothing but its sixteen rows was written.
pub fn compare(original: &Original) -> Vec<Count> {
    let mut tables = Count::new("rows of both tables");
    let mut missing = Count::new("rows of the missing glyph");
    let mut past = Count::new("rows of code points past the table");
    let mut curly = Count::new("rows of curly quotes and dashes, and of code points beside them");
    let mut fences = Count::new("bytes around the rows");
    let chars = || REPLACED.into_iter().chain(BESIDE).chain(PLAIN);
    for (mode, bold) in MODES
        .into_iter()
        .flat_map(|mode| [(mode, false), (mode, true)])
    {
        let mut each = |code: u32, rows: &mut Count| {
            compare_glyph(original, Asked { mode, code, bold }, rows, &mut fences);
        };
        (0..256).for_each(|code| each(code, &mut tables));
        each(256, &mut missing);
        PAST.into_iter().for_each(|code| each(code, &mut past));
        chars().for_each(|ch| each(ch.into(), &mut curly));
    }
    vec![tables, missing, past, curly, fences]
}

fn compare_glyph(original: &Original, asked: Asked, rows: &mut Count, fences: &mut Count) {
    let Asked { mode, code, bold } = asked;
    let font = if bold { "bold" } else { "regular" };
    let name = format!("U+{code:04X} {font}, mode {mode}");
    let expected = expected_rows(original, asked);
    let (found, kept) = proved_rows(asked, expected);
    for (row, (expected, found)) in expected.iter().zip(found).enumerate() {
        rows.check(if *expected == found {
            Ok(())
        } else {
            Err(format!(
                "{name} row {row}: the original has {expected:02x}, the proved font {found:02x}"
            ))
        });
    }
    fences.check(if kept {
        Ok(())
    } else {
        Err(format!("{name}: bytes around the rows were written"))
    });
}

/// What the original draws, in mode 1 of the letter replaced. It has no glyph for a code that is no
/// `char`; the proved font, which takes any number, shows the missing glyph there as for every code
/// point past the table.
fn expected_rows(original: &Original, asked: Asked) -> [u8; 16] {
    let drawn = char::from_u32(asked.code).map(|ch| replaced::in_mode(asked.mode, ch));
    let code = drawn.map_or(256, u32::from);
    original.glyph_rows(asked.bold, code).unwrap_or_default()
}

/// The proved font's rows, and whether the bytes around them were kept.
fn proved_rows(asked: Asked, expected: [u8; 16]) -> ([u8; 16], bool) {
    const FENCE: [u8; 16] = [0xa5; 16];
    // The rows start as other than expected, so that one left unwritten is seen.
    let mut rows = [FENCE, expected.map(|row| !row), FENCE];
    proved::glyph_rows(asked.mode, asked.code, asked.bold, &mut rows[1]);
    (rows[1], rows[0] == FENCE && rows[2] == FENCE)
}

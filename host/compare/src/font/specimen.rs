//! The sample that the proved program `specimen` has to write: what the original draws.

use reference::Original;
use std::fmt::Write;

/// One line for each code point of the table and for U+0100, which stands for all the rest: the
/// code point, the regular font's rows and the bold font's, in hexadecimal.
pub fn specimen(original: &Original) -> String {
    let mut text = String::new();
    for code in 0..=256 {
        let _ = writeln!(
            text,
            "{code:04x} {} {}",
            rows(original, code, false),
            rows(original, code, true)
        );
    }
    text
}

fn rows(original: &Original, code: u32, bold: bool) -> String {
    let rows = original.glyph_rows(bold, code).unwrap_or_default();
    rows.iter().map(|row| format!("{row:02x}")).collect()
}

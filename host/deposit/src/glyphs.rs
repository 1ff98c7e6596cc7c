//! The glyphs as numbers, worked out by the proved program `specimen`.

const ABOUT: &str = "\
Every glyph of both fonts: `regular_table` and `bold_table` of the part Font, worked out, so that a player may copy them
from here. The part Glyphs says them by rules; where the two differ, one of them was damaged. Each line has a code
point, the sixteen rows of its glyph in the regular font, the top row first, and those in the bold font, all
hexadecimal. Two digits are a row of eight pixels; the highest bit is the leftmost. The last line, 0100, is the box of
every code point from 0100 on, but for those that glyph mode 1 draws as others (part Modes).
";

/// What the table is, which glyphs are blank, and a line for each of the others.
pub fn table(lines: &str) -> String {
    let (blank, drawn): (Vec<&str>, Vec<&str>) = lines.lines().partition(|line| is_blank(line));
    let codes: Vec<u32> = blank.iter().filter_map(|line| code(line)).collect();
    let runs = codes.chunk_by(|a, b| a + 1 == *b).map(run);
    let runs = runs.collect::<Vec<_>>().join(", ");
    let none = format!(
        "There are {} lines. The glyphs of {runs} have none: no pixel of them is lit.\n\n",
        drawn.len()
    );
    let drawn: String = drawn.iter().map(|line| format!("{line}\n")).collect();
    [ABOUT, &none, &drawn].concat()
}

/// Its rows are all 0.
fn is_blank(line: &str) -> bool {
    let mut words = line.split(' ').skip(1);
    words.all(|rows| rows.bytes().all(|digit| digit == b'0'))
}

fn code(line: &str) -> Option<u32> {
    let word = line.split(' ').next()?;
    u32::from_str_radix(word, 16).ok()
}

/// Code points in a row: the first and the last.
fn run(codes: &[u32]) -> String {
    match codes {
        [one] => format!("{one:04x}"),
        [first, .., last] => format!("{first:04x} to {last:04x}"),
        [] => String::new(),
    }
}

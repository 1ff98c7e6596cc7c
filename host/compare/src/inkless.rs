//! Letters whose glyph has no ink, and those beside them. Which is which the original says.

use crate::random::Random;

/// Those that are neither space nor control, and so always on a line.
const KEPT: [char; 2] = ['\u{a0}', '\u{ad}'];
/// Others, among them the first and the last of each range.
const OTHERS: [char; 9] = [
    ' ', '\t', '\0', '\u{1}', '\u{1f}', '\u{7f}', '\u{80}', '\u{85}', '\u{9f}',
];
/// Letters with ink next to them, and letters whose low bits are one of theirs.
const BESIDE: [char; 9] = [
    '!',
    '~',
    '\u{a1}',
    '\u{ac}',
    '\u{ae}',
    '\u{120}',
    '\u{1ad}',
    '\u{20a0}',
    '\u{1_00ad}',
];

/// One without ink mostly, and often one that is on a line alone.
pub fn letter(random: &mut Random) -> char {
    match random.within(0..=9) {
        0 => random.pick(&BESIDE),
        1..=5 => random.pick(&KEPT),
        _ => random.pick(&OTHERS),
    }
}

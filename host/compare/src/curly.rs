//! The letters that glyph mode 1 replaces, those beside them, and those that they are drawn as.

use crate::random::Random;

/// The six of document 02's S-3.
pub const REPLACED: [char; 6] = [
    '\u{2018}', '\u{2019}', '\u{201c}', '\u{201d}', '\u{2013}', '\u{2014}',
];
/// Others of their block, and letters whose low bits are one of theirs.
pub const BESIDE: [char; 12] = [
    '\u{2012}',
    '\u{2015}',
    '\u{2017}',
    '\u{201a}',
    '\u{201b}',
    '\u{201e}',
    '\u{18}',
    '\u{119}',
    '\u{2118}',
    '\u{a019}',
    '\u{1_2018}',
    '\u{10_201d}',
];
/// What they are drawn as.
pub const PLAIN: [char; 3] = ['\'', '"', '-'];

/// One of the six mostly.
pub fn letter(random: &mut Random) -> char {
    match random.within(0..=9) {
        0 => random.pick(&BESIDE),
        1 => random.pick(&PLAIN),
        _ => random.pick(&REPLACED),
    }
}

//! Random texts: words, spaces, breaks and controls.

use crate::random::Random;
use std::ops::RangeInclusive;

/// Letters past ASCII, of which none is a space or a control here: no-break space, soft hyphen,
/// em space, zero width space, line separator and ideographic space are not. Among them are those
/// that glyph mode 1 replaces.
const FAR: [char; 18] = [
    '\u{a0}',
    '\u{ad}',
    'é',
    'ÿ',
    '\u{100}',
    '\u{2003}',
    '\u{200b}',
    '\u{2013}',
    '\u{2014}',
    '\u{2018}',
    '\u{2019}',
    '\u{201c}',
    '\u{201d}',
    '\u{2028}',
    '\u{3000}',
    '語',
    '\u{1f600}',
    '\u{10ffff}',
];

/// What a text is made of.
#[derive(Clone, Copy)]
pub enum Mix {
    All,
    /// Words and spaces.
    Prose,
    /// One word, with a control now and then.
    Word,
}

pub fn text(random: &mut Random, count: usize, kinds: Mix) -> Vec<char> {
    let mut text = Vec::new();
    while text.len() < count {
        let kind = match kinds {
            Mix::All => random.within(0..=19),
            Mix::Prose => random.within(0..=14),
            Mix::Word if random.one_in(400) => 16,
            Mix::Word => 0,
        };
        piece(random, kind, &mut text);
    }
    text.truncate(count);
    text
}

fn piece(random: &mut Random, kind: i64, text: &mut Vec<char>) {
    match kind {
        0..=7 => repeat(random, 1..=12, letter, text),
        8..=12 => repeat(random, 1..=3, |_| ' ', text),
        13..=14 => repeat(random, 1..=5, space, text),
        15 => repeat(random, 1..=4, |_| '\n', text),
        16 => repeat(random, 1..=4, control, text),
        17 => repeat(random, 12..=90, letter, text),
        18 => {
            repeat(random, 1..=9, control, text);
            repeat(random, 1..=30, letter, text);
        }
        _ => repeat(random, 2..=30, letter_or_control, text),
    }
}

fn repeat(
    random: &mut Random,
    times: RangeInclusive<i64>,
    mut make: impl FnMut(&mut Random) -> char,
    text: &mut Vec<char>,
) {
    for _ in 0..random.within(times) {
        text.push(make(random));
    }
}

fn letter(random: &mut Random) -> char {
    if random.one_in(10) {
        random.pick(&FAR)
    } else {
        random.within(0x21..=0x7e) as u8 as char
    }
}

fn space(random: &mut Random) -> char {
    random.pick(&[' ', '\t'])
}

/// Any control that is neither tab nor break.
fn control(random: &mut Random) -> char {
    let code = match random.within(0..=62) as u8 {
        low @ 0x00..=0x08 => low,
        low @ 0x09..=0x1d => low + 2,
        high => high - 0x1e + 0x7f,
    };
    code as char
}

fn letter_or_control(random: &mut Random) -> char {
    if random.one_in(2) {
        letter(random)
    } else {
        control(random)
    }
}

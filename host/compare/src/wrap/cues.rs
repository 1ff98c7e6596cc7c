//! Random cues that give wrapping something to do: first a text, then lists that cut it anywhere.

use crate::random::Random;
use crate::tape::segments::{self, DEEPEST, MOST_LETTERS};
use crate::tape::{MOST_BYTES, written};
use crate::wrap::text::{Mix, text};
use oxideav_core::Segment;
use std::ops::RangeInclusive;

pub struct Cue {
    pub segments: Vec<Segment>,
    pub tape: Vec<u8>,
}

/// How many letters the lists' slices have at most, one of these for each list.
const SLICES: [usize; 4] = [3, 12, 60, MOST_LETTERS];

/// A cue of up to 200 letters mostly, now and then of many more, or of as many as there may be on
/// one logical line.
pub fn random(random: &mut Random) -> Cue {
    match random.within(0..=199) {
        0 => sized(random, 1000..=4096),
        1 => one_line(random),
        2..=25 => written(random, segments::random),
        26..=59 => sized(random, 0..=8),
        60..=109 => sized(random, 0..=40),
        _ => sized(random, 0..=200),
    }
}

/// A cue with so many letters, of all kinds.
pub fn sized(random: &mut Random, letters: RangeInclusive<i64>) -> Cue {
    written(random, |random| {
        let count = random.within(letters.clone()) as usize;
        let text = text(random, count, Mix::All);
        cut(random, &text)
    })
}

/// A cue that shows a text, cut by lists.
pub fn of_text(random: &mut Random, text: &[char]) -> Cue {
    written(random, |random| cut(random, text))
}

/// Segments with their shortest tape.
pub fn shortest(segments: Vec<Segment>) -> Cue {
    let tape = written::shortest(&segments);
    Cue { segments, tape }
}

/// A cue whose one logical line has nearly as many letters as there may be.
fn one_line(random: &mut Random) -> Cue {
    written(random, |random| {
        let count = random.within(4085..=4096) as usize;
        let kinds = random.pick(&[Mix::Prose, Mix::Word]);
        let text = text(random, count, kinds);
        // In one text mostly, so that words are as long as they can be.
        if random.one_in(4) {
            cut(random, &text)
        } else {
            segments::each_letter(&text.iter().collect::<String>())
        }
    })
}

/// Segments and their tape, made again where it would be too long.
fn written(random: &mut Random, make: impl Fn(&mut Random) -> Vec<Segment>) -> Cue {
    loop {
        let segments = make(random);
        let tape = written::tape(random, &segments);
        if tape.len() <= MOST_BYTES {
            return Cue { segments, tape };
        }
    }
}

/// Segments that show the text, and the names of voices beside it.
fn cut(random: &mut Random, text: &[char]) -> Vec<Segment> {
    let depth = if random.one_in(8) { DEEPEST } else { 4 };
    list(random, depth, text, &mut (MOST_LETTERS - text.len()))
}

/// Cuts the text into slices. `spare` is how many letters voices may add.
fn list(random: &mut Random, depth: usize, text: &[char], spare: &mut usize) -> Vec<Segment> {
    let most = random.pick(&SLICES);
    let mut segments = Vec::new();
    let mut rest = text;
    while !rest.is_empty() {
        nothing(random, &mut segments);
        let length = random.within(1..=most.min(rest.len()) as i64);
        let (slice, after) = rest.split_at(length as usize);
        rest = after;
        if depth > 0 && random.one_in(3) {
            segments.push(opener(random, depth - 1, slice, spare));
        } else if random.one_in(2) {
            segments.push(Segment::Text(slice.iter().collect()));
        } else {
            segments.extend(segments::each_letter(&slice.iter().collect::<String>()));
        }
    }
    nothing(random, &mut segments);
    segments
}

fn opener(random: &mut Random, depth: usize, text: &[char], spare: &mut usize) -> Segment {
    let kind = random.within(0..=8);
    if kind > 0 || *spare < 2 {
        let children = list(random, depth, text, spare);
        return segments::group(random, kind, children);
    }
    *spare -= 2;
    let (name, rest) = text.split_at(random.within(0..=text.len() as i64) as usize);
    Segment::Voice {
        name: name.iter().collect(),
        children: list(random, depth, rest, spare),
    }
}

/// Now and then adds what shows no letter: an empty text, which is a run, or what is none.
fn nothing(random: &mut Random, segments: &mut Vec<Segment>) {
    let empty = || Segment::Text(String::new());
    match random.within(0..=23) {
        0 => segments.push(empty()),
        1 => segments.push(Segment::Timestamp {}),
        2 => segments.push(Segment::Bold(Vec::new())),
        3 | 4 => {
            let kind = random.within(0..=8);
            segments.push(segments::group(random, kind, vec![empty()]));
        }
        _ => {}
    }
}

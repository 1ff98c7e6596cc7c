//! The sample that the proved program `lines_sample` replays: limits and tapes, and what the original
//! makes of them.

use crate::digest::digest;
use crate::random::Random;
use crate::refusal;
use crate::sample::{Due, Sample, answer, most};
use crate::tape::letters::of_runs;
use crate::tape::{MOST_BYTES, ROOM, WHITE, damage};
use crate::wrap::cues;
use crate::wrap::reading;
use reference::{Line, Original};

/// Twenty are refused.
const SAMPLE: Sample = Sample {
    seed: 21,
    entries: 300,
    apart: 15,
};
/// How long the tape of a refused entry may be, where its letters are not too many.
const SHORT: usize = 200;

struct Entry {
    limit: u16,
    tape: Vec<u8>,
    due: Due,
}

/// The entries, one after the other: two bytes of limit and two of length, high byte first, and
/// the tape.
pub fn entries() -> Vec<u8> {
    let mut bytes = Vec::new();
    for Entry { limit, tape, .. } in all() {
        bytes.extend(limit.to_be_bytes());
        bytes.extend((tape.len() as u16).to_be_bytes());
        bytes.extend(tape);
    }
    bytes
}

/// A line for each entry: how many lines it has and their digest, or its refusal.
pub fn answers(original: &Original) -> String {
    let mut text = String::new();
    for Entry { limit, due, .. } in all() {
        let due = due.map(|segments| {
            let lines = original.wrap(&segments, WHITE, limit.into());
            (lines.len(), digest(bytes(&lines)))
        });
        answer(&mut text, due);
    }
    text
}

/// The numbered entries, and a last one whose tape is a byte too long.
fn all() -> impl Iterator<Item = Entry> {
    let numbered = SAMPLE.all(|random, _, index| numbered(random, index));
    numbered.chain([Entry {
        limit: 4,
        tape: vec![0x01; MOST_BYTES + 1],
        due: refusal::plain(10),
    }])
}

/// The letters and columns of each line, two bytes each, and the code point of each letter on
/// lines, three bytes; high byte first.
fn bytes(lines: &[Line]) -> Vec<u8> {
    let (mut heads, mut codes) = (Vec::new(), Vec::new());
    for line in lines {
        let letters = of_runs(&line.pieces);
        for number in [letters.len(), line.columns] {
            heads.extend((number as u16).to_be_bytes());
        }
        codes.extend(
            letters
                .iter()
                .flat_map(|letter| letter.bytes().into_iter().take(3)),
        );
    }
    heads.extend(codes);
    heads
}

/// An entry, or the refused one with this index: each fault of a tape twice, and then limits out of
/// range.
fn numbered(random: &mut Random, index: Option<u64>) -> Entry {
    let small = random.within_u32(1..=40) as u16;
    match index {
        Some(index @ 0..14) => refused(random, small, index as u32 % 7 + 1),
        Some(index) => refused(random, [0, 4097][index as usize % 2], 8),
        None => {
            let cue = cues::sized(random, 0..=80);
            Entry {
                limit: if random.one_in(40) { 4096 } else { small },
                tape: cue.tape,
                due: Ok(cue.segments),
            }
        }
    }
}

/// An entry whose tape, at this limit, is refused with this number.
fn refused(random: &mut Random, limit: u16, number: u32) -> Entry {
    loop {
        let tape = damage::tape(random);
        if let Err(refusal) = reading::read(&tape, ROOM, limit.into())
            && refusal.number == number
            && tape.len() <= most(number, SHORT)
        {
            let due = Err(refusal);
            return Entry { limit, tape, due };
        }
    }
}

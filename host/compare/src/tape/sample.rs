//! The sample that the proved program `letters` replays: tapes, and what the original makes of them.

use crate::digest::digest;
use crate::random::Random;
use crate::sample::answer;
use crate::tape::{WHITE, flatten, segments, written};
use oxideav_core::Segment;
use reference::Original;

const TAPES: u64 = 300;
const SEED: u64 = 20;

/// The segments with this number, and their tape.
fn numbered(number: u64) -> (Vec<Segment>, Vec<u8>) {
    let mut random = Random::new(SEED, number);
    let segments = segments::random(&mut random);
    let tape = written::tape(&mut random, &segments);
    (segments, tape)
}

/// The tapes, one after the other: two bytes of length, high byte first, and the tape.
pub fn tapes() -> Vec<u8> {
    let mut bytes = Vec::new();
    for number in 0..TAPES {
        let (_, tape) = numbered(number);
        bytes.extend((tape.len() as u16).to_be_bytes());
        bytes.extend(tape);
    }
    bytes
}

/// A line for each tape: how many letters it has, and the digest of their bytes.
pub fn answers(original: &Original) -> String {
    let mut text = String::new();
    for number in 0..TAPES {
        let (segments, _) = numbered(number);
        let letters = flatten(original, &segments, WHITE);
        let digest = digest(letters.iter().flat_map(|letter| letter.bytes()));
        answer(&mut text, Ok((letters.len(), digest)));
    }
    text
}

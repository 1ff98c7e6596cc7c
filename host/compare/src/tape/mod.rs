//! The tape: segments written as tapes, flattened by the original and by the proved reader; and
//! tapes of every kind, held to a reading of document 01 of its own.

mod check;
pub mod damage;
pub mod letters;
pub mod limits;
mod proved;
pub mod reading;
pub mod sample;
pub mod segments;
pub mod speed;
pub mod written;

use crate::count::Count;
use crate::random::Random;
use crate::refusal::Tally;
use check::check;
use letters::Letter;
use oxideav_core::Segment;
use reference::Original;

/// The most bytes of a tape.
pub const MOST_BYTES: usize = 16_384;
/// The bytes of a workspace.
pub const ROOM: usize = 65_536;
/// The color of the outer list, where a call takes none.
pub const WHITE: [u8; 4] = [255; 4];
/// Sets the damaged tapes apart from the whole ones of the same seed.
const APART: u64 = 0xda_3a6e;

/// All comparisons of the tape, with this many random tapes of each kind.
pub fn compare(original: &Original, seed: u64, tapes: u64) -> Vec<Count> {
    vec![
        limits::compare(original),
        whole(original, seed, tapes),
        damaged(seed, tapes),
    ]
}

/// The letters that the original makes of segments.
pub fn flatten(original: &Original, segments: &[Segment], color: [u8; 4]) -> Vec<Letter> {
    letters::of_runs(&original.flatten_segments(segments, color))
}

/// Random segments, written as tapes.
fn whole(original: &Original, seed: u64, tapes: u64) -> Count {
    let mut count = Count::new("tapes of random segments");
    for number in 0..tapes {
        let mut random = Random::new(seed, number);
        let color = segments::color(&mut random);
        let segments = segments::random(&mut random);
        let tape = written::tape(&mut random, &segments);
        let expected = Ok(flatten(original, &segments, color));
        count.check(
            check(&tape, color, ROOM, &expected)
                .map_err(|found| format!("seed {seed}, tape {number}: {found}")),
        );
    }
    count
}

/// Tapes with something wrong, most of them. Shows how many were due which refusal.
fn damaged(seed: u64, tapes: u64) -> Count {
    let mut count = Count::new("damaged tapes");
    let mut tally = Tally::default();
    for number in 0..tapes {
        let mut random = Random::new(seed ^ APART, number);
        let color = segments::color(&mut random);
        let tape = damage::tape(&mut random);
        let expected = reading::read(&tape, color);
        tally.add(&expected);
        count.check(
            check(&tape, color, ROOM, &expected)
                .map_err(|found| format!("seed {seed}, damaged tape {number}: {found}")),
        );
    }
    println!("damaged tapes: {tally}");
    count
}

//! Draw: cues drawn by the original and by the proved call, every byte of the buffer compared, and
//! calls of every kind held to what document 01 asks of them.

pub mod cases;
pub mod due;
pub mod frame;
pub mod generate;
mod glyphs;
mod kinds;
pub mod limits;
mod places;
pub mod refusals;
pub mod sample;
pub mod scenes;
pub mod speed;

use crate::count::Count;
use crate::random::Random;
use crate::wrap::{self, cues::Cue};
use frame::{Drawn, Frame};
use kinds::Kinds;
use oxideav_core::SubtitleCue;
pub use reference::settings;
use reference::{Original, replaced};
use settings::Settings;

/// Sets the frames apart from the cues of the same seed.
const FRAMES: u64 = 0xf4a3e5;

/// All comparisons of Draw, with this many random frames, and as many of damaged tapes.
pub fn compare(original: &Original, seed: u64, frames: u64) -> Vec<Count> {
    let mut counts = Vec::from(glyphs::compare(original));
    counts.extend([
        places::compare(original),
        limits::compare(original),
        refusals::each(original),
        random(original, seed, frames),
        refusals::random(original, seed, frames),
    ]);
    counts
}

/// Random cues with random settings over random bytes.
fn random(original: &Original, seed: u64, frames: u64) -> Count {
    let mut count = Count::new("random frames");
    let mut kinds = Kinds::default();
    for number in 0..frames {
        let found = random_frame(
            original,
            &mut Random::new(seed ^ FRAMES, number),
            &mut kinds,
        );
        count.check(found.map_err(|found| format!("seed {seed}, frame {number}: {found}")));
    }
    kinds.show();
    count
}

fn random_frame(original: &Original, random: &mut Random, kinds: &mut Kinds) -> Result<(), String> {
    let settings = generate::settings(random);
    let cue = generate::cue(random);
    let (frame, cue) = call(random, settings, cue);
    let strokes = due::strokes(original, &settings, &cue.segments);
    let due = Drawn {
        strokes: strokes.total,
        bytes: due::picture(original, &settings, &cue, &frame.bytes),
    };
    kinds.add(&settings, replaced::count(&cue.segments), &strokes, &due);
    frame.hold(&Ok(due))
}

/// A call of Draw over random bytes, and the cue as the original is given it.
pub fn call(random: &mut Random, settings: Settings, cue: Cue) -> (Frame, SubtitleCue) {
    let frame = Frame {
        settings,
        tape: cue.tape,
        room: wrap::room(random),
        bytes: generate::buffer(random, settings.area()),
    };
    let cue = SubtitleCue {
        segments: cue.segments,
        positioning: settings.positioning(random.one_in(2)),
    };
    (frame, cue)
}

//! The original's text with its numbers changed, held to the original's own at the original's numbers.

use crate::count::Count;
use crate::draw::{self, due};
use crate::house::generate;
use crate::random::Random;
use oxideav_core::SubtitleCue;
use reference::Original;

/// Sets these frames apart from the others of the same seed.
const UNCHANGED: u64 = 0x5_1082;

/// Random frames, whole and stopped anywhere: both draw the same, and count the same strokes.
pub fn compare(original: &Original, seed: u64, frames: u64) -> Count {
    let mut count = Count::new("the original's changed text at its own numbers");
    let Some(changed) = reference::changed() else {
        return count;
    };
    for number in 0..frames {
        let found = frame(
            [original, &changed],
            &mut Random::new(seed ^ UNCHANGED, number),
        );
        count.check(found.map_err(|found| format!("seed {seed}, frame {number}: {found}")));
    }
    count
}

fn frame(texts: [&Original; 2], random: &mut Random) -> Result<(), String> {
    let settings = draw::generate::settings(random);
    let cue = SubtitleCue {
        segments: generate::cue(random).segments,
        positioning: settings.positioning(random.one_in(2)),
    };
    let blank = vec![0; settings.area()];
    let [whole, changed] = texts.map(|text| due::picture(text, &settings, &cue, &blank));
    if whole != changed {
        return Err("another picture".to_string());
    }
    let total = due::strokes(texts[0], &settings, &cue.segments).total;
    let at = random.within(0..=total as i64) as usize;
    let [own, changed] = texts.map(|text| {
        let mut bytes = blank.clone();
        let strokes = text.render_strokes(&settings, &cue, &mut bytes, at);
        (strokes, bytes)
    });
    if own.0 != changed.0 {
        return Err(format!("{} strokes, and {} in its own", changed.0, own.0));
    }
    if own.1 != changed.1 {
        return Err(format!("another picture after {at} strokes"));
    }
    Ok(())
}

//! The original's draw loop with the counter in it, held to the original itself.

use crate::count::Count;
use crate::draw::generate;
use crate::random::Random;
use crate::work::theirs::Theirs;
use reference::Original;

/// Sets these frames apart from the jobs of the same seed.
const STOPPED: u64 = 0x570_93d;

/// Random frames: not stopped, it draws what the original draws and counts its strokes; stopped
/// anywhere and begun there again, it draws the same. Whether a letter has ink it asks the font's
/// lookup, where the strokes due are by the glyphs as they are drawn.
pub fn compare(original: &Original, seed: u64, frames: u64) -> Count {
    let mut count = Count::new("the original's strokes, counted");
    for number in 0..frames {
        let found = frame(original, &mut Random::new(seed ^ STOPPED, number));
        count.check(found.map_err(|found| format!("seed {seed}, frame {number}: {found}")));
    }
    count
}

fn frame(original: &Original, random: &mut Random) -> Result<(), String> {
    let settings = generate::settings(random);
    let cue = generate::cue(random);
    let mut theirs = Theirs::new(original, settings, cue.segments);
    let (total, whole) = (theirs.total, theirs.whole());
    if theirs.after(total) != whole {
        return Err("all strokes draw another picture".to_string());
    }
    let at = random.within(0..=total as i64) as usize;
    let mut bytes = theirs.after(at).to_vec();
    let counted = theirs.draw(&mut bytes, at..total);
    if counted != total {
        return Err(format!("{counted} strokes counted, {total} are due"));
    }
    if bytes != whole {
        return Err(format!("stopped after {at} strokes, another picture"));
    }
    Ok(())
}

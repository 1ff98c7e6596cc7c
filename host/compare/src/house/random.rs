//! Random frames, jobs and records at other house settings.

use crate::count::Count;
use crate::draw;
use crate::draw::frame::Frame;
use crate::house::generate;
use crate::house::kinds::Kinds;
use crate::random::Random;
use crate::refusal::Tally;
use crate::work::{self, damaged, due};
use crate::wrap;
use reference::Original;

/// Set these apart from each other and from the frames of the same seed.
const FRAMES: u64 = 0x5_10f4;
const JOBS: u64 = 0x5_10b5;
const RECORDS: u64 = 0x5_104e;

/// Random cues with random settings over random bytes, by Draw.
pub fn frames(original: &Original, seed: u64, frames: u64) -> Count {
    const NAME: &str = "frames at other house settings";
    let mut kinds = Kinds::default();
    let count = each(NAME, seed, FRAMES, frames, |random| {
        let settings = generate::settings(random);
        let cue = generate::cue(random);
        let (frame, cue) = draw::call(random, settings, cue);
        kinds.hold(original, &frame, &cue)
    });
    kinds.show(NAME);
    count
}

/// Random jobs, of which most are finished.
pub fn jobs(original: &Original, seed: u64, jobs: u64) -> Count {
    const NAME: &str = "jobs at other house settings";
    let mut kinds = Kinds::default();
    let mut works = work::kinds::Kinds::default();
    let count = each(NAME, seed, JOBS, jobs, |random| {
        let (settings, stripes) = generate::striped(random);
        let cue = generate::cue(random);
        let job = work::done(original, random, settings, cue, stripes, &mut works)?;
        kinds.job(&job);
        Ok(())
    });
    kinds.show(NAME);
    works.show(NAME);
    count
}

/// Works on records that no Open gave, half of them with a counter that is too large: how large one may
/// be hangs on the outline cap.
pub fn records(original: &Original, seed: u64, calls: u64) -> Count {
    const NAME: &str = "Works on any record at other house settings";
    let mut tally = Tally::default();
    let count = each(NAME, seed, RECORDS, calls, |random| {
        let (settings, stripes) = generate::striped(random);
        let frame = Frame {
            settings,
            tape: generate::cue(random).tape,
            room: wrap::room(random),
            bytes: draw::generate::buffer(random, settings.area()),
        };
        let call = damaged::work(original, random, frame, &stripes);
        let due = due::of_call(original, &call);
        tally.add(&due);
        call.hold(&due)
    });
    println!("{NAME}: {tally}");
    count
}

fn each(
    name: &'static str,
    seed: u64,
    apart: u64,
    cases: u64,
    mut case: impl FnMut(&mut Random) -> Result<(), String>,
) -> Count {
    let mut count = Count::new(name);
    for number in 0..cases {
        let found = case(&mut Random::new(seed ^ apart, number));
        count.check(found.map_err(|found| format!("seed {seed}, case {number}: {found}")));
    }
    count
}

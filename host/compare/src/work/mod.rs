//! Open and Work: jobs of many calls held to the original's drawing, stopped after so many of its
//! strokes, and calls of every kind held to what documents 01 and 02 ask of them.

mod any;
pub mod call;
pub mod damaged;
pub mod due;
pub mod generate;
pub mod job;
pub mod kinds;
pub mod record;
mod refusals;
pub mod sample;
pub mod speed;
pub mod steps;
mod stopped;
pub mod theirs;

use crate::count::Count;
use crate::draw;
use crate::draw::settings::Settings;
use crate::random::Random;
use crate::wrap::cues::Cue;
use job::Job;
use kinds::Kinds;
use record::Stripes;
use reference::Original;

/// Sets the jobs apart from the frames of the same seed.
const JOBS: u64 = 0x10_b5;
/// The bytes of a picture on which a job makes few calls.
const LARGE: usize = 1 << 20;

/// All comparisons of Open and Work, with this many random jobs, and as many calls of each other
/// kind.
pub fn compare(original: &Original, seed: u64, jobs: u64) -> Vec<Count> {
    vec![
        stopped::compare(original, seed, jobs),
        steps::compare(original),
        refusals::each(original),
        random(original, seed, jobs),
        any::compare(original, seed, jobs),
        damaged::compare(original, seed, jobs),
    ]
}

/// Random jobs, of which most are finished.
fn random(original: &Original, seed: u64, jobs: u64) -> Count {
    let mut count = Count::new("random jobs");
    let mut kinds = Kinds::default();
    for number in 0..jobs {
        let found = random_job(original, &mut Random::new(seed ^ JOBS, number), &mut kinds);
        count.check(found.map_err(|found| format!("seed {seed}, job {number}: {found}")));
    }
    kinds.show("random jobs");
    count
}

fn random_job(original: &Original, random: &mut Random, kinds: &mut Kinds) -> Result<(), String> {
    let (settings, stripes) = generate::settings(random);
    let cue = draw::generate::cue(random);
    done(original, random, settings, cue, stripes, kinds).map(|_| ())
}

/// A job of random Works, which most often finish it.
pub fn done<'a>(
    original: &'a Original,
    random: &mut Random,
    settings: Settings,
    cue: Cue,
    stripes: Stripes,
    kinds: &mut Kinds,
) -> Result<Job<'a>, String> {
    let bytes = draw::generate::buffer(random, settings.area());
    let large = bytes.len() > LARGE;
    let mut job = Job::open(original, settings, cue, bytes, stripes)?;
    let most = match random.within(0..=7) {
        _ if large => 3,
        0 => 30,
        _ => 8,
    };
    for _ in 0..random.within(0..=most) {
        let work = generate::work(random, &settings, job.record(), job.theirs.total);
        job.work(work, kinds)?;
    }
    let stripes = 0..job.stripes();
    match random.within(0..=4) {
        0 | 1 => {}
        _ if large && stripes.len() > 8 => {}
        2 => job.finish(stripes.rev(), kinds)?,
        _ => job.finish(stripes, kinds)?,
    }
    Ok(job)
}

//! Random jobs in stripes of any heights, with refused calls among theirs.

use crate::count::Count;
use crate::draw;
use crate::draw::settings::House;
use crate::random::Random;
use crate::stripes::kinds::{Facts, Kinds, all_met, ways};
use crate::stripes::{ENOUGH, each, generate};
use crate::tape::ROOM;
use crate::work::call::Ask;
use crate::work::job::{Job, Work};
use crate::work::record::{Ends, Record, STRIPES, is_sound};
use crate::work::{self, damaged};
use crate::wrap;
use reference::Original;

/// Sets these jobs apart from the others of the same seed.
const JOBS: u64 = 0x54_10b5;
/// Jobs with more stripes are finished less often.
const MANY: usize = 20;

/// What the jobs met.
#[derive(Default)]
struct Met {
    works: work::kinds::Kinds,
    refused: Kinds,
    opens_aside: Kinds,
    works_aside: Kinds,
    finished: Kinds,
}

/// Each call is held to what is due of its rows, one by one, and finished jobs to the original's whole
/// picture.
pub fn compare(original: &Original, seed: u64, jobs: u64) -> Count {
    const NAME: &str = "jobs in unequal stripes";
    let mut count = Count::new(NAME);
    let mut met = Met::default();
    each(&mut count, seed, JOBS, jobs, |random| {
        job(original, random, &mut met)
    });
    met.works.show(NAME);
    let enough = jobs >= ENOUGH;
    all_met(NAME, enough, met.works.counts(), &mut count);
    for (name, kinds) in [
        ("their Works, some refused", &met.refused),
        ("Opens beside them", &met.opens_aside),
        ("Works beside them", &met.works_aside),
        ("those finished", &met.finished),
    ] {
        kinds.settle(&format!("{NAME}, {name}"), enough, &mut count);
    }
    count
}

fn job(original: &Original, random: &mut Random, met: &mut Met) -> Result<(), String> {
    let settings = generate::settings(random);
    let stripes = generate::stripes(random, settings.height);
    let bytes = draw::generate::buffer(random, settings.area());
    let cue = generate::cue(random);
    let mut job = Job::open(original, settings, cue, bytes, stripes)?;
    let mut changed = false;
    for _ in 0..random.within(1..=7) {
        match random.within(0..=7) {
            0 => open_aside(&mut job, random, &mut met.opens_aside)?,
            1 => work_aside(&mut job, random, &mut met.works_aside)?,
            2 => {
                job.change_unused(|entries| generate::fill(random, entries, u32::MAX));
                changed = job.stripes() < STRIPES;
            }
            _ => {}
        }
        let mut work = work::generate::work(random, &settings, job.record(), job.theirs.total);
        if random.one_in(2) {
            work.stripe = work::generate::low_stripe(random, &settings, job.record());
        }
        met.refused.add(refused(&work, job.record()));
        job.work(work, &mut met.works)?;
    }
    finish(job, random, changed, met)
}

/// Finishes most jobs, from the top or from the bottom.
fn finish(mut job: Job, random: &mut Random, changed: bool, met: &mut Met) -> Result<(), String> {
    let stripes = 0..job.stripes();
    if random.one_in(3) || stripes.len() > MANY && !random.one_in(4) {
        return Ok(());
    }
    met.finished.add(finished(&job, changed));
    if random.one_in(3) {
        job.finish(stripes.rev(), &mut met.works)
    } else {
        job.finish(stripes, &mut met.works)
    }
}

/// An Open whose ends break the rule, mostly.
fn open_aside(job: &mut Job, random: &mut Random, kinds: &mut Kinds) -> Result<(), String> {
    let height = job.theirs.settings.height;
    let stripes = if random.one_in(8) {
        generate::stripes(random, height)
    } else {
        generate::broken(random, height)
    };
    let record = damaged::anything(random);
    let refusal = job.aside(record, Ask::Open { stripes }, room(random))?;
    let keep_rule = stripes.keep_rule(height);
    let ways = ways(&stripes, height, refusal == Some(13));
    kinds.add(ways.chain([
        ("not refused", refusal.is_none()),
        ("11, the rule kept", refusal == Some(11) && keep_rule),
        ("11, the rule broken", refusal == Some(11) && !keep_rule),
    ]));
    Ok(())
}

/// A Work whose record breaks the rule, or has counters that cannot be, or both, mostly.
fn work_aside(job: &mut Job, random: &mut Random, kinds: &mut Kinds) -> Result<(), String> {
    let (height, total) = (job.theirs.settings.height, job.theirs.total);
    let mut record = *job.record();
    if !random.one_in(4) {
        let stripes = generate::broken(random, height);
        (record.count, record.ends) = (stripes.count, stripes.ends);
    }
    damaged::spoil(random, &mut record, total as u32);
    let stripe = work::generate::stripe(random, &record);
    let budget = random.within_u32(0..=u32::MAX);
    let refusal = job.aside(record, Ask::Work { stripe, budget }, room(random))?;
    let (sound, there) = (is_sound(&record, total), stripe < record.count);
    let ways = ways(&record, height, refusal == Some(13));
    kinds.add(ways.chain([
        ("13, and a counter too large", refusal == Some(13) && !sound),
        ("14, and such a stripe", refusal == Some(14) && there),
        ("14, and no such stripe", refusal == Some(14) && !there),
        ("12", refusal == Some(12)),
        ("not refused", refusal.is_none()),
    ]));
    Ok(())
}

fn room(random: &mut Random) -> usize {
    if random.one_in(8) {
        ROOM - 1
    } else {
        wrap::room(random)
    }
}

/// Which Works of a job are refused.
fn refused(work: &Work, record: &Record) -> Facts<6> {
    let short = work.room < ROOM;
    let missing = !short && work.stripe >= record.count;
    [
        ("11", short),
        ("12 for the count", missing && work.stripe == record.count),
        ("12 for 63", missing && work.stripe == 63),
        ("12 for 64", missing && work.stripe == 64),
        ("12 far away", missing && work.stripe > u16::MAX.into()),
        ("neither", !short && !missing),
    ]
}

fn finished(job: &Job, changed: bool) -> Facts<13> {
    let settings = &job.theirs.settings;
    let heights = job.record().heights();
    let counters = &job.record().counters[..heights.len()];
    let unequal = heights.windows(2).any(|pair| pair[0] != pair[1]);
    let (first, others) = heights.split_first().unwrap_or((&0, &[]));
    let thin = others.len() > 1 && others.iter().all(|&rows| rows <= 3);
    let aligned = |alignment| job.theirs.total > 0 && settings.alignment == alignment;
    [
        ("thin stripes under a tall one", thin && *first > 7),
        ("a row each", thin && heights.iter().all(|&rows| rows == 1)),
        ("64 stripes, unequal", heights.len() == STRIPES && unequal),
        ("unequal", unequal),
        ("neighbours at other strokes", {
            counters.windows(2).any(|pair| pair[0] != pair[1])
        }),
        ("alignment 0", aligned(0)),
        ("alignment 1", aligned(1)),
        ("alignment 2", aligned(2)),
        ("alignment 3", aligned(3)),
        ("alignment 4", aligned(4)),
        ("other house settings", settings.house != House::ORIGINAL),
        ("unused entries changed on the way", changed),
        ("no stripe", heights.is_empty()),
    ]
}

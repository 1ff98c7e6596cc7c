//! The jobs of the sample that the proved program `replay` replays: each an Open and Works, and what
//! the original draws by them.

use crate::draw::frame::{Drawn, Frame};
use crate::draw::sample::{self, Calls, FILLED};
use crate::draw::settings::SLANT_MAX;
use crate::random::Random;
use crate::sample::Sample;
use crate::stripes::generate::{self as any, WAYS};
use crate::tape::damage;
use crate::work::call::{Ask, Call, Outcome};
use crate::work::record::{Ends, STRIPES, Stripes, ZEROS, ending, equal, unused};
use crate::work::theirs::Theirs;
use crate::work::{due, generate};
use reference::Original;

/// Fourteen have an Open that is refused.
const JOBS: Sample = Sample {
    seed: 23,
    entries: 84,
    apart: 6,
};
/// Of so many jobs this one, counted from 0, has 64 stripes.
const TALL_APART: u64 = 8;
const TALL: u64 = 3;
/// Of so many jobs the first two have stripes of one height.
const EQUAL_APART: u64 = 7;
/// Of so many that have others the last has numbers in entries that are not used, so many.
const JUNK_APART: u64 = 5;
const JUNK: usize = 3;
/// How many unequal stripes a job has at most, where it has not 64.
const FEW: usize = 16;
/// How many letters a cue may have, and bytes its tape.
const LETTERS: i64 = 35;
const SHORT: usize = 200;
/// How many Works of any kind a job may have, and how many of its last stripes are then finished.
const WORKS: i64 = 9;
const LAST: usize = 3;
/// The bytes of a Work.
const WORK: usize = 5;
/// How wide a tall picture may be, so that two bytes hold its buffer's length.
const SLIM: u32 = 100;

struct Job {
    /// The next call, on what the one before left.
    call: Call,
    /// What Open is handed, in numbers that two bytes hold.
    stripes: Stripes,
    /// One after the other: a byte of stripe, and four of budget, high byte first.
    works: Vec<u8>,
    /// A line for each call that is made.
    answers: String,
}

/// The entries of the jobs.
pub fn entries(original: &Original) -> Vec<u8> {
    let mut bytes = Vec::new();
    for job in all(original) {
        let Stripes { count, ends } = &job.stripes;
        let zeros = ends.iter().rev().take_while(|&&end| end == 0).count();
        let calls = Calls {
            count: *count as u8,
            ends: &ends[..STRIPES - zeros],
            calls: 1 + (job.works.len() / WORK) as u16,
            works: &job.works,
        };
        sample::put(&mut bytes, &job.call.frame, calls);
    }
    bytes
}

/// A line for each Open, and for each Work of those that are not refused.
pub fn answers(original: &Original) -> String {
    all(original).map(|job| job.answers).collect()
}

fn all(original: &Original) -> impl Iterator<Item = Job> {
    JOBS.all(|random, number, index| match index {
        Some(index) => refused(original, random, number, index),
        None => done(original, random, number),
    })
}

fn done(original: &Original, random: &mut Random, number: u64) -> Job {
    let (mut frame, segments) = sample::caption(random, number, 1..=LETTERS, SHORT);
    let stripes = stripes(random, number, &mut frame);
    let settings = frame.settings;
    let theirs = Theirs::new(original, settings, segments);
    let mut job = Job::new(frame, stripes);
    job.step(due::of_cue(&theirs, &job.call));
    for _ in 0..random.within(2..=WORKS) {
        let stripe = generate::low_stripe(random, &settings, &job.call.record);
        let budget = generate::budget(random, &settings, theirs.total);
        job.work(&theirs, stripe, budget);
    }
    let stripes = job.call.record.stripes();
    if random.one_in(2) {
        for stripe in stripes.saturating_sub(LAST)..stripes {
            job.work(&theirs, stripe as u32, u32::MAX);
        }
    }
    job
}

/// Stripes that the picture admits; now and then it is made higher for 64 of them.
fn stripes(random: &mut Random, number: u64, frame: &mut Frame) -> Stripes {
    let tall = number % TALL_APART == TALL;
    if tall {
        heighten(random, frame);
    }
    let height = frame.settings.height;
    let mut stripes = match (number % EQUAL_APART < 2, tall) {
        (true, true) => equal(height, height.div_ceil(STRIPES as u32)),
        (true, false) => generate::equal(random, height),
        (false, true) => ending(&any::cut(random, height, STRIPES as u32)),
        (false, false) => few(random, height),
    };
    if number % JUNK_APART == JUNK_APART - 1 {
        let entries = unused(stripes.count, &mut stripes.ends);
        let some = JUNK.min(entries.len());
        any::fill(random, &mut entries[..some], u16::MAX.into());
    }
    stripes
}

/// Any stripes that keep the rule, but not many.
fn few(random: &mut Random, height: u32) -> Stripes {
    loop {
        let stripes = ending(&any::ends(random, height));
        if stripes.stripes() <= FEW {
            return stripes;
        }
    }
}

/// Makes the picture so high that it has 64 stripes of one row or two.
fn heighten(random: &mut Random, frame: &mut Frame) {
    let behind = frame.bytes.len() - frame.settings.area();
    frame.settings.width = frame.settings.width.min(SLIM);
    frame.settings.height = STRIPES as u32 * random.within_u32(1..=2);
    frame.bytes.resize(frame.settings.area() + behind, FILLED);
}

/// A job whose Open is refused, so that its Works are not done: by each way to break the stripes' rule,
/// which is looked at before the tape; for its slant and for its buffer, which are looked at before the
/// stripes; and for its tape.
fn refused(original: &Original, random: &mut Random, number: u64, index: u64) -> Job {
    let ways = WAYS.len() as u64;
    let due = if index < ways {
        13
    } else {
        [8, 9, 3, 5][(index - ways) as usize]
    };
    loop {
        let (mut frame, _) = sample::caption(random, number, 1..=LETTERS, SHORT);
        if index % 2 == 1 || due < 8 {
            frame.tape = damage::tape(random);
        }
        let stripes = match due {
            13 => broken(random, index as usize, &mut frame),
            8 | 9 => ending(&[0]),
            _ => few(random, frame.settings.height),
        };
        match due {
            8 => frame.settings.house.slant = SLANT_MAX + 1,
            9 => frame
                .bytes
                .truncate(frame.settings.area().saturating_sub(1)),
            _ => {}
        }
        let short = frame.tape.len() <= SHORT;
        let mut job = Job::new(frame, stripes);
        let outcome = due::of_call(original, &job.call);
        if short && matches!(&outcome, Err(refusal) if refusal.number == due) {
            job.step(outcome);
            for _ in 0..random.within(1..=3) {
                job.put(0, random.within_u32(0..=u32::MAX));
            }
            return job;
        }
    }
}

/// The rule broken this way, by few ends, or by a count of 65 or 255 beside 64 entries that keep it.
fn broken(random: &mut Random, way: usize, frame: &mut Frame) -> Stripes {
    const FAR: u32 = u8::MAX as u32;
    // The ways whose count is over 64.
    const OVER: [usize; 2] = [6, 7];
    loop {
        heighten(random, frame);
        let height = frame.settings.height;
        let ends = any::ends(random, height);
        let stripes = WAYS[way](random, height, ends);
        let full = stripes.ends[STRIPES - 1] == height;
        let small = stripes.ends.iter().all(|&end| end <= u16::MAX.into());
        let fits = match OVER.contains(&way) {
            true => full && matches!(stripes.count, 65 | FAR),
            false => stripes.count as usize <= FEW,
        };
        if small && fits {
            return stripes;
        }
    }
}

impl Job {
    fn new(frame: Frame, stripes: Stripes) -> Job {
        Job {
            call: Call {
                frame,
                record: ZEROS,
                ask: Ask::Open { stripes },
            },
            stripes,
            works: Vec::new(),
            answers: String::new(),
        }
    }

    /// Does a Work, of a stripe whose number a byte holds.
    fn work(&mut self, theirs: &Theirs, stripe: u32, budget: u32) {
        let stripe = stripe.min(u8::MAX.into());
        self.put(stripe as u8, budget);
        self.call.ask = Ask::Work { stripe, budget };
        self.step(due::of_cue(theirs, &self.call));
    }

    fn put(&mut self, stripe: u8, budget: u32) {
        self.works.push(stripe);
        self.works.extend(budget.to_be_bytes());
    }

    /// Writes the call's answer; the next call gets what this one left.
    fn step(&mut self, due: Outcome) {
        let drawn = due.map(|done| {
            self.call.record = done.record;
            self.call.frame.bytes.clone_from(&done.bytes);
            Drawn {
                strokes: done.answer,
                bytes: done.bytes,
            }
        });
        sample::answer(&mut self.answers, drawn);
    }
}

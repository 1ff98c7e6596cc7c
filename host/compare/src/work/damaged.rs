//! Random calls of Open and Work with something wrong, most of them.

use crate::count::Count;
use crate::draw::frame::Frame;
use crate::draw::settings::SIDE_MAX;
use crate::draw::{self, refusals};
use crate::random::Random;
use crate::refusal::Tally;
use crate::tape::letters::segments;
use crate::work::call::{Ask, Call};
use crate::work::record::{self, Ends, Record, STRIPES, Stripes};
use crate::work::{due, generate};
use reference::Original;
use std::array;

/// Sets these calls apart from the jobs of the same seed.
const DAMAGED: u64 = 0xda_10b5;

/// Holds calls to the reading of documents 01 and 02. Shows how many were due which refusal.
pub fn compare(original: &Original, seed: u64, calls: u64) -> Count {
    let mut count = Count::new("damaged calls of Open and Work");
    let (mut opens, mut works) = (Tally::default(), Tally::default());
    for number in 0..calls {
        let call = damaged(original, &mut Random::new(seed ^ DAMAGED, number));
        let due = due::of_call(original, &call);
        match call.ask {
            Ask::Open { .. } => opens.add(&due),
            Ask::Work { .. } => works.add(&due),
        }
        let found = call.hold(&due);
        count.check(found.map_err(|found| format!("seed {seed}, damaged call {number}: {found}")));
    }
    println!("damaged calls of Open: {opens}");
    println!("damaged calls of Work: {works}");
    count
}

/// A third are Opens. Half of the tapes are whole, so that records and stripes are come to.
fn damaged(original: &Original, random: &mut Random) -> Call {
    let (width, height) = match random.within(0..=2) {
        0 => (random.within_u32(0..=8), random.within_u32(60..=300)),
        _ => (random.within_u32(0..=40), random.within_u32(0..=40)),
    };
    let mut frame = refusals::damaged(random, width, height);
    if random.one_in(2) {
        frame.tape = draw::generate::cue(random).tape;
    }
    let settings = frame.settings;
    let stripe_height = stripe_height(random, settings.height.min(SIDE_MAX));
    let stripes = record::equal(settings.height, stripe_height);
    if random.one_in(3) {
        return Call {
            frame,
            record: anything(random),
            ask: Ask::Open { stripes },
        };
    }
    work(original, random, frame, &stripes)
}

/// A Work on a record that may be, in half of the cases, or has a counter too large.
pub fn work(original: &Original, random: &mut Random, frame: Frame, stripes: &Stripes) -> Call {
    let settings = frame.settings;
    let total = draw::due::letters(&frame).map_or(0, |letters| {
        let segments = segments(&letters, settings.default_color);
        draw::due::strokes(original, &settings, &segments).total
    });
    let mut record = generate::sound(random, stripes, total);
    let ask = Ask::Work {
        stripe: generate::stripe(random, &record),
        budget: generate::budget(random, &settings, total),
    };
    spoil(random, &mut record, total as u32);
    Call { frame, record, ask }
}

/// Now and then 0, too small or any.
fn stripe_height(random: &mut Random, height: u32) -> u32 {
    match random.within(0..=15) {
        0 => 0,
        1 => height.div_ceil(STRIPES as u32).saturating_sub(1),
        2 => random.within_u32(0..=8),
        3 => random.within_u32(0..=u32::MAX),
        _ => generate::stripe_height(random, height),
    }
}

/// Numbers without a plan, but for the count, which is often one that there may be.
pub fn anything(random: &mut Random) -> Record {
    let most = random.pick(&[STRIPES as u32, u32::MAX]);
    Record {
        count: random.within_u32(0..=most),
        ends: array::from_fn(|_| random.within_u32(0..=u32::MAX)),
        counters: array::from_fn(|_| random.within_u32(0..=u32::MAX)),
    }
}

/// Leaves a record as it is, in half of the cases, or makes a counter too large: of any stripe, of
/// the last, of the first that is missing, of the last that there may be, or of two.
pub fn spoil(random: &mut Random, record: &mut Record, total: u32) {
    let stripes = record.stripes();
    let any = random.within(0..=STRIPES as i64 - 1) as usize;
    let large = random.within_u32(1..=u32::MAX);
    let over = random.pick(&[total + 1, total + 1, large, u32::MAX]);
    let missing = random.pick(&[1, 1, total, over]);
    let (last, next) = (stripes.saturating_sub(1), stripes.min(STRIPES - 1));
    match random.within(0..=11) {
        0 => record.counters[any] = over,
        1 => record.counters[last] = over,
        2 => record.counters[next] = missing,
        3 => record.counters[STRIPES - 1] = missing,
        4 => (record.counters[any], record.counters[next]) = (over, missing),
        5 => *record = anything(random),
        _ => {}
    }
}

//! Random stripes, records and Works.

use crate::draw::generate;
use crate::draw::settings::Settings;
use crate::random::Random;
use crate::tape::ROOM;
use crate::work::job::Work;
use crate::work::record::{self, Ends, Record, STRIPES, Stripes, ZEROS};
use crate::wrap;

/// How many rows of a lowest line there are, and a few.
const LINE: u32 = 18;

/// Settings within their ranges, now and then of a picture with 64 stripes, and stripes of one height.
pub fn settings(random: &mut Random) -> (Settings, Stripes) {
    if random.one_in(12) {
        let (height, stripes) = most_stripes(random);
        let width = random.within_u32(1..=40);
        return (generate::sized(random, width, height), stripes);
    }
    let settings = generate::settings(random);
    (settings, equal(random, settings.height))
}

/// How high a picture with 64 stripes of one height is, and these.
pub fn most_stripes(random: &mut Random) -> (u32, Stripes) {
    let tall = random.within_u32(1..=3);
    let height = (STRIPES as u32 - 1) * tall + random.within_u32(1..=tall);
    (height, record::equal(height, tall))
}

/// Stripes of one height that a picture so high admits.
pub fn equal(random: &mut Random, height: u32) -> Stripes {
    record::equal(height, stripe_height(random, height))
}

/// A stripe height that a picture so high admits: small mostly, now and then all of it or more.
pub fn stripe_height(random: &mut Random, height: u32) -> u32 {
    let least = height.div_ceil(STRIPES as u32).max(1);
    match random.within(0..=11) {
        0 => least,
        1 => height.max(1),
        2 => random.pick(&[height + 1, 1 << 26, 1 << 31, u32::MAX]),
        3 => random.within_u32(least..=u32::MAX),
        4..=6 => random.within_u32(least..=height.max(least)),
        _ => random.within_u32(least..=least + 11),
    }
}

/// A Work of a job with so many strokes, now and then one that is refused.
pub fn work(random: &mut Random, settings: &Settings, record: &Record, total: usize) -> Work {
    let room = if random.one_in(16) {
        let short = random.within(0..=ROOM as i64 - 1) as usize;
        random.pick(&[short, ROOM - 1, 0])
    } else {
        wrap::room(random)
    };
    Work {
        stripe: stripe(random, record),
        budget: budget(random, settings, total),
        room,
    }
}

/// A stripe that is there mostly, and often begun; or the next one; or one far away, now and then with
/// the low bits of one that is there.
pub fn stripe(random: &mut Random, record: &Record) -> u32 {
    let count = record.stripes() as u32;
    let begun = record.counters.iter().position(|&counter| counter > 0);
    match (random.within(0..=19), begun) {
        (0, _) => count,
        (1, _) => random.pick(&[count + 1, 63, 64, 65, 1 << 8, 1 << 16, 1 << 31, u32::MAX]),
        (2, _) if random.one_in(2) => random.within_u32(0..=u32::MAX),
        (3..=10, Some(begun)) => begun as u32,
        _ => random.within_u32(0..=count.max(1) - 1),
    }
}

/// One of the lowest line's in half of the cases, or any such.
pub fn low_stripe(random: &mut Random, settings: &Settings, record: &Record) -> u32 {
    if random.one_in(2) {
        return stripe(random, record);
    }
    let line = settings.height.saturating_sub(settings.bottom_margin);
    let row = line.saturating_sub(random.within_u32(1..=LINE));
    record.stripe_of(row).unwrap_or(0) as u32
}

/// A few strokes mostly, often around a letter's, now and then all or more.
pub fn budget(random: &mut Random, settings: &Settings, total: usize) -> u32 {
    let (letter, total) = (settings.strokes() as u32, total as u32);
    match random.within(0..=15) {
        0 => 0,
        1 | 2 => 1,
        3 => letter,
        4 => total,
        5 => random.pick(&[total + 1, 1 << 31, u32::MAX - 1, u32::MAX]),
        6 => random.within_u32(0..=u32::MAX),
        7..=9 => random.within_u32(0..=total),
        10..=12 => random.within_u32(0..=3 * letter),
        _ => random.within_u32(0..=letter),
    }
}

/// A record of these stripes with any counters that may be, for a cue of so many strokes.
pub fn sound(random: &mut Random, stripes: &Stripes, total: usize) -> Record {
    let Stripes { count, ends } = *stripes;
    let mut record = Record {
        count,
        ends,
        ..ZEROS
    };
    for counter in &mut record.counters[..stripes.stripes()] {
        *counter = match random.within(0..=7) {
            0 | 1 => 0,
            2 => total as u32,
            _ => random.within_u32(0..=total as u32),
        };
    }
    record
}

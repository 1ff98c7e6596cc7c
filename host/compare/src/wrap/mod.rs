//! Wrap: cues wrapped by the original and by the proved call, and calls of every kind held to a
//! reading of document 01 of its own.

mod check;
pub mod cues;
mod kinds;
pub mod limits;
mod lines;
pub mod proved;
mod reading;
mod refusals;
pub mod sample;
pub mod speed;
mod text;

use crate::count::Count;
use crate::fenced::Fenced;
use crate::random::Random;
use crate::refusal::Tally;
use crate::tape::{ROOM, WHITE, damage, flatten};
use kinds::Kinds;
use reference::Original;

/// Sets the cues, and the damaged tapes, apart from the tapes of the same seed.
const CUES: u64 = 0x11e5;
const DAMAGED: u64 = 0xda_11e5;

/// Limits just outside the range, and far.
const OUTSIDE: [u32; 3] = [0, 4097, u32::MAX];

/// All comparisons of Wrap, with this many random cues, and as many damaged tapes.
pub fn compare(original: &Original, seed: u64, cues: u64) -> Vec<Count> {
    vec![
        limits::compare(original),
        refusals::compare(),
        random(original, seed, cues),
        damaged(seed, cues),
    ]
}

/// The bytes of a workspace that is large enough: as few as there may be mostly.
pub fn room(random: &mut Random) -> usize {
    match random.within(0..=7) {
        0 => ROOM + 1,
        1 => ROOM + random.within(0..=5000) as usize,
        _ => ROOM,
    }
}

/// Random cues, each at several limits in one workspace, which holds what the last call left.
fn random(original: &Original, seed: u64, cues: u64) -> Count {
    let mut count = Count::new("lines of random cues");
    let mut kinds = Kinds::new();
    for number in 0..cues {
        let mut random = Random::new(seed ^ CUES, number);
        let cue = cues::random(&mut random);
        let letters = flatten(original, &cue.segments, WHITE);
        let room = room(&mut random);
        let mut workspace = Fenced::workspace(&mut random, room);
        let named = |found| format!("seed {seed}, cue {number}: {found}");
        for limit in limits(&mut random, letters.len() as u32) {
            let lines = check::cue(original, &cue, limit, &mut workspace);
            let met = lines.map(|lines| kinds.add(&letters, &lines, limit));
            count.check(met.map_err(named));
        }
        if random.one_in(16) {
            let limit = random.pick(&OUTSIDE);
            count.check(check::tape(&cue.tape, limit, &mut workspace).map_err(named));
        }
    }
    kinds.show();
    count
}

/// Small limits mostly; now and then the count of letters, or nearly; and the largest, where there
/// are letters enough for them to matter.
fn limits(random: &mut Random, letters: u32) -> Vec<u32> {
    let mut limits: Vec<u32> = [8, 8, 40, 40]
        .map(|most| random.within_u32(1..=most))
        .into();
    if random.one_in(8) {
        let near = random.within_u32(letters.saturating_sub(3)..=letters + 1);
        limits.push(near.clamp(1, 4096));
    }
    if letters >= 4085 || random.one_in(400) {
        limits.extend([4085, 4090, 4094].map(|least| random.within_u32(least..=4096)));
    }
    limits
}

/// Damaged tapes, of which most are refused. Shows how many were due which refusal.
fn damaged(seed: u64, tapes: u64) -> Count {
    let mut count = Count::new("lines of damaged tapes");
    let mut tally = Tally::default();
    for number in 0..tapes {
        let found = damaged_call(&mut Random::new(seed ^ DAMAGED, number), &mut tally);
        count.check(found.map_err(|found| format!("seed {seed}, damaged tape {number}: {found}")));
    }
    println!("lines of damaged tapes: {tally}");
    count
}

/// Wraps a tape with something wrong, now and then with limit or workspace out of range too.
fn damaged_call(random: &mut Random, tally: &mut Tally) -> Result<(), String> {
    let tape = damage::tape(random);
    let limit = match random.within(0..=31) {
        0 => random.pick(&OUTSIDE),
        1 => random.within_u32(4090..=4096),
        _ => random.within_u32(1..=40),
    };
    let room = if random.one_in(32) {
        random.within(0..=ROOM as i64 - 1) as usize
    } else {
        room(random)
    };
    let due = reading::read(&tape, room, limit);
    tally.add(&due);
    check::outcome(&tape, limit, &mut Fenced::workspace(random, room), &due)
}

//! Works on records that no Open gave: any counters that may be, over any picture.

use crate::count::Count;
use crate::draw;
use crate::draw::frame::Frame;
use crate::random::Random;
use crate::refusal::Tally;
use crate::work::call::{Ask, Call};
use crate::work::theirs::Theirs;
use crate::work::{due, generate};
use crate::wrap;
use reference::Original;

/// Sets these calls apart from the jobs of the same seed.
const ANY: u64 = 0xa_4719;

/// The strokes from the stripe's counter on are held to the original's, drawn over the same bytes.
pub fn compare(original: &Original, seed: u64, calls: u64) -> Count {
    let mut count = Count::new("Works on any record");
    let mut tally = Tally::default();
    for number in 0..calls {
        let found = random(original, &mut Random::new(seed ^ ANY, number), &mut tally);
        count.check(found.map_err(|found| format!("seed {seed}, record {number}: {found}")));
    }
    println!("Works on any record: {tally}");
    count
}

fn random(original: &Original, random: &mut Random, tally: &mut Tally) -> Result<(), String> {
    let (settings, stripes) = generate::settings(random);
    let cue = draw::generate::cue(random);
    let theirs = Theirs::new(original, settings, cue.segments);
    let record = generate::sound(random, &stripes, theirs.total);
    let call = Call {
        frame: Frame {
            settings,
            tape: cue.tape,
            room: wrap::room(random),
            bytes: draw::generate::buffer(random, settings.area()),
        },
        ask: Ask::Work {
            stripe: generate::stripe(random, &record),
            budget: generate::budget(random, &settings, theirs.total),
        },
        record,
    };
    let due = due::of_cue(&theirs, &call);
    tally.add(&due);
    call.hold(&due)
}

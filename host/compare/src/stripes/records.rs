//! Works on records that no Open gave: any count, ends and counters, over any picture.

use crate::count::Count;
use crate::draw;
use crate::draw::frame::Frame;
use crate::random::Random;
use crate::refusal::Tally;
use crate::stripes::kinds::{self, Facts, Kinds};
use crate::stripes::{ENOUGH, each, generate};
use crate::tape::{damage, reading};
use crate::work::call::{Ask, Call, Outcome};
use crate::work::record::{Ends, STRIPES, Stripes, ZEROS, ending};
use crate::work::{self, damaged, due};
use crate::wrap;
use reference::Original;

/// Sets these calls apart from the jobs of the same seed.
const RECORDS: u64 = 0x54_4ec0;
/// What no cue has more strokes than: 4,096 letters with the most outline.
const MOST_STROKES: u32 = 4096 * 33;

/// Half as many calls as there are jobs.
pub fn compare(original: &Original, seed: u64, jobs: u64) -> Count {
    const NAME: &str = "Works on any record, unequal stripes";
    let mut count = Count::new(NAME);
    let (mut tally, mut kinds) = (Tally::default(), Kinds::default());
    each(&mut count, seed, RECORDS, jobs / 2, |random| {
        let call = call(original, random);
        let due = due::of_call(original, &call);
        tally.add(&due);
        let broken = matches!(&due, Err(refusal) if refusal.number == 13);
        let ways = kinds::ways(&call.record, call.frame.settings.height, broken);
        kinds.add(ways.chain(done(&call, &due)).chain(refused(&call, &due)));
        call.hold(&due)
    });
    println!("{NAME}: {tally}");
    kinds.settle(NAME, jobs >= ENOUGH, &mut count);
    count
}

/// In half of the cases with a counter that cannot be; now and then with a damaged tape.
fn call(original: &Original, random: &mut Random) -> Call {
    let settings = generate::settings(random);
    let tape = if random.one_in(6) {
        damage::tape(random)
    } else {
        generate::cue(random).tape
    };
    let frame = Frame {
        settings,
        tape,
        room: wrap::room(random),
        bytes: draw::generate::buffer(random, settings.area()),
    };
    let stripes = stripes(random, settings.height);
    let mut call = damaged::work(original, random, frame, &stripes);
    if random.one_in(2) {
        call.ask = Ask::Work {
            stripe: work::generate::low_stripe(random, &settings, &call.record),
            budget: random.within_u32(1..=400),
        };
    }
    call
}

/// Stripes that keep the rule mostly, with anything in the entries that are not used.
fn stripes(random: &mut Random, height: u32) -> Stripes {
    match random.within(0..=23) {
        0 => {
            let record = damaged::anything(random);
            let (count, ends) = (record.count, record.ends);
            Stripes { count, ends }
        }
        1 => ending(&[]),
        2..=5 => generate::broken(random, height),
        _ => generate::stripes(random, height),
    }
}

fn done(call: &Call, due: &Outcome) -> Facts<2> {
    let seen = due
        .as_ref()
        .is_ok_and(|done| done.bytes != call.frame.bytes);
    let record = &call.record;
    let unused = record.ends[record.stripes()..].iter().any(|&end| end > 0);
    [
        ("done, and seen", seen),
        ("done, seen, numbers in unused entries", seen && unused),
    ]
}

/// Which refusal is due, and what comes behind it in the order.
fn refused(call: &Call, due: &Outcome) -> Facts<13> {
    let (record, frame) = (&call.record, &call.frame);
    let number = due.as_ref().err().map(|refusal| refusal.number);
    let is = |refusal| number == Some(refusal);
    let Ask::Work { stripe, .. } = call.ask else {
        unreachable!("each is a Work");
    };
    let there = stripe < record.count;
    let past = record.counters[record.stripes()..].iter().any(|&c| c > 0);
    let own = there && record.counters[stripe as usize % STRIPES] > MOST_STROKES;
    let faulty = reading::read(&frame.tape, frame.settings.default_color).is_err();
    let flat = frame.settings.height == 0;
    [
        ("13, and a fault of the tape", is(13) && faulty),
        ("13, and counters past the last stripe", is(13) && past),
        ("a fault of the tape, and 14", faulty && past && !is(13)),
        ("14 for the stripe's own counter", is(14) && own && !past),
        (
            "14 for another stripe's counter",
            is(14) && there && !own && !past,
        ),
        ("14 past the last stripe", is(14) && there && past),
        ("14, and no such stripe", is(14) && !there),
        ("12 for the count", is(12) && stripe == record.count),
        ("12 past 64", is(12) && stripe > 64),
        ("12 at height 0", is(12) && flat),
        ("14 at height 0", is(14) && flat),
        ("12 for the record of zeros", is(12) && *record == ZEROS),
        ("13 for the record of zeros", is(13) && *record == ZEROS),
    ]
}

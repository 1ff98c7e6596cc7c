//! Entries past the count: whatever they hold, answers and pictures are the same. Open's record has 0
//! there, and Work leaves them.

use crate::count::Count;
use crate::draw;
use crate::draw::frame::Frame;
use crate::random::Random;
use crate::stripes::kinds::{Facts, Kinds};
use crate::stripes::{ENOUGH, each, generate};
use crate::work::call::{Ask, Call, Outcome};
use crate::work::record::{Record, Stripes, ending, unused};
use crate::work::theirs::Theirs;
use crate::work::{self, damaged, due};
use crate::wrap;
use reference::Original;

/// Sets these calls apart from the jobs of the same seed.
const UNUSED: u64 = 0x54_0b5e;
/// How many other fillings are tried.
const OTHERS: usize = 3;

/// A tenth as many cases as there are jobs.
pub fn compare(original: &Original, seed: u64, jobs: u64) -> Count {
    const NAME: &str = "unused entries changed";
    let mut count = Count::new(NAME);
    let mut kinds = Kinds::default();
    each(&mut count, seed, UNUSED, jobs / 10, |random| {
        case(original, random, &mut kinds)
    });
    kinds.settle(NAME, jobs >= ENOUGH, &mut count);
    count
}

fn case(original: &Original, random: &mut Random, kinds: &mut Kinds) -> Result<(), String> {
    let settings = generate::settings(random);
    let mut stripes = stripes(random, settings.height);
    unused(stripes.count, &mut stripes.ends).fill(0);
    let cue = generate::cue(random);
    let theirs = Theirs::new(original, settings, cue.segments);
    let mut record = work::generate::sound(random, &stripes, theirs.total);
    if random.one_in(6) {
        damaged::spoil(random, &mut record, theirs.total as u32);
        unused(record.count, &mut record.ends).fill(0);
    }
    let mut call = Call {
        frame: Frame {
            settings,
            tape: cue.tape,
            room: wrap::room(random),
            bytes: draw::generate::buffer(random, settings.area()),
        },
        record: damaged::anything(random),
        ask: Ask::Open { stripes },
    };
    let opened = opens(random, &theirs, &mut call, stripes)?;
    call.ask = Ask::Work {
        stripe: work::generate::low_stripe(random, &settings, &record),
        budget: work::generate::budget(random, &settings, theirs.total),
    };
    let worked = works(random, &theirs, &mut call, record)?;
    kinds.add(facts(&opened, &worked, &call.frame.bytes));
    Ok(())
}

/// Stripes that keep the rule, or break it by the entries that are used or by the count.
fn stripes(random: &mut Random, height: u32) -> Stripes {
    if random.one_in(4) {
        generate::broken(random, height)
    } else {
        ending(&generate::ends(random, height))
    }
}

/// What is due is worked out once, with 0 in the unused entries, and here stays as it is.
fn opens(
    random: &mut Random,
    theirs: &Theirs,
    call: &mut Call,
    mut stripes: Stripes,
) -> Result<Outcome, String> {
    let due = due::of_cue(theirs, call);
    call.hold(&due)?;
    for _ in 0..OTHERS {
        let entries = unused(stripes.count, &mut stripes.ends);
        other(random, theirs.settings.height, entries);
        call.ask = Ask::Open { stripes };
        call.hold(&due)?;
    }
    Ok(due)
}

/// Here the entries come back in the record, and nothing else of what is due changes.
fn works(
    random: &mut Random,
    theirs: &Theirs,
    call: &mut Call,
    record: Record,
) -> Result<Outcome, String> {
    call.record = record;
    let mut due = due::of_cue(theirs, call);
    call.hold(&due)?;
    for _ in 0..OTHERS {
        let entries = unused(record.count, &mut call.record.ends);
        other(random, theirs.settings.height, entries);
        if let Ok(done) = &mut due {
            done.record.ends = call.record.ends;
        }
        call.hold(&due)?;
    }
    Ok(due)
}

/// Puts other numbers there; the first is not 0, and often one that the ends could go on with.
fn other(random: &mut Random, height: u32, entries: &mut [u32]) {
    generate::fill(random, entries, u32::MAX);
    if let Some(first) = entries.first_mut() {
        let any = random.within_u32(1..=u32::MAX);
        *first = random.pick(&[height.max(1), any]);
    }
}

fn facts(opened: &Outcome, worked: &Outcome, before: &[u8]) -> Facts<7> {
    let refused = |due: &Outcome, number| matches!(due, Err(refusal) if refusal.number == number);
    [
        ("Open accepted", opened.is_ok()),
        ("Open refused 13", refused(opened, 13)),
        ("Work done", worked.is_ok()),
        ("Work done, and seen", {
            worked.as_ref().is_ok_and(|done| done.bytes != before)
        }),
        ("Work refused 12", refused(worked, 12)),
        ("Work refused 13", refused(worked, 13)),
        ("Work refused 14", refused(worked, 14)),
    ]
}

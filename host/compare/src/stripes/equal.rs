//! Stripes of one height, which old stations send: ends made of it are refused where document 01's rule
//! refused the height, and row y is in stripe y / height.

use crate::count::Count;
use crate::draw::cases::{text, translucent};
use crate::draw::frame::Frame;
use crate::refusal::plain;
use crate::stripes::each;
use crate::stripes::kinds::{Facts, Kinds};
use crate::tape::ROOM;
use crate::work::call::{Ask, Call, Done, Outcome};
use crate::work::record::{Record, STRIPES, Stripes, ZEROS, equal};
use crate::work::theirs::Theirs;
use reference::Original;

/// Pictures as high as this and lower.
const HEIGHTS: u32 = 130;
/// Stripes as high as this and lower.
const STRIPE_HEIGHTS: u32 = 70;
/// And others.
const LARGER: [u32; 16] = [
    71,
    127,
    128,
    129,
    130,
    131,
    256,
    4096,
    4097,
    1 << 16,
    1 << 26,
    1 << 31,
    (1 << 31) + 1,
    3 << 30,
    u32::MAX - 1,
    u32::MAX,
];
/// Pictures as high as may be, and stripes around a 64th of them.
const HIGHEST: [u32; 3] = [4032, 4095, 4096];
const AROUND: [u32; 9] = [0, 1, 62, 63, 64, 65, 4095, 4096, u32::MAX];
/// Each on a line of its own, so that all of a picture has ink.
const LETTERS: &str = "gÅ\u{100}jÇgÅj";
/// What a buffer holds before Open.
const FILLED: u8 = 0xa5;
/// Sets the heights apart from other numbers of the same seed.
const ANY: u64 = 0x54_e0a1;

/// The comparison's maker of ends held to the wrapper's, for any two numbers.
pub fn makers(seed: u64) -> Count {
    let mut count = Count::new("makers of equal ends");
    each(&mut count, seed, ANY, 20_000, |random| {
        let mut any = || {
            let most = u32::MAX >> random.within_u32(0..=31);
            random.within_u32(0..=most)
        };
        same(any(), any())
    });
    for (height, stripe_height) in pairs() {
        count.check(same(height, stripe_height));
    }
    count
}

fn same(height: u32, stripe_height: u32) -> Result<(), String> {
    let (ours, made) = (
        equal(height, stripe_height),
        Stripes::of_height(height, stripe_height),
    );
    if ours == made {
        return Ok(());
    }
    Err(format!(
        "{height} rows by {stripe_height}: {made:?}\n    where {ours:?} is due"
    ))
}

fn pairs() -> impl Iterator<Item = (u32, u32)> {
    let low = (0..=HEIGHTS).flat_map(|height| {
        let heights = (0..=STRIPE_HEIGHTS).chain(LARGER);
        heights.map(move |stripe_height| (height, stripe_height))
    });
    let high = HIGHEST
        .into_iter()
        .flat_map(|height| AROUND.map(|around| (height, around)));
    low.chain(high)
}

/// Open, and Works on some stripes, each held to the old rule.
pub fn compare(original: &Original) -> Count {
    const NAME: &str = "stripes of one height";
    let mut count = Count::new(NAME);
    let mut kinds = Kinds::default();
    for (height, stripe_height) in pairs() {
        let theirs = Theirs::new(original, translucent(9, height), text(LETTERS).segments);
        let found = job(&theirs, stripe_height);
        let named = |found| format!("stripes of {stripe_height} rows: {found}");
        count.check(found.map_err(named));
        kinds.add(facts(height, stripe_height));
    }
    kinds.settle(NAME, true, &mut count);
    count
}

/// Document 01's rule: 13 for a stripe height of 0, or over 64 stripes.
fn is_refused(height: u32, stripe_height: u32) -> bool {
    stripe_height == 0 || STRIPES as u64 * u64::from(stripe_height) < height.into()
}

fn facts(height: u32, stripe_height: u32) -> Facts<6> {
    let refused = is_refused(height, stripe_height);
    let last = height.checked_rem(stripe_height).unwrap_or(0);
    [
        ("accepted", !refused),
        ("refused for 0 rows", stripe_height == 0),
        ("refused for over 64", refused && stripe_height > 0),
        ("higher than the picture", stripe_height > height),
        (
            "the last shorter",
            !refused && stripe_height < height && last > 0,
        ),
        ("none", !refused && height == 0),
    ]
}

fn job(theirs: &Theirs, stripe_height: u32) -> Result<(), String> {
    let settings = theirs.settings;
    let stripes = equal(settings.height, stripe_height);
    let mut call = Call {
        frame: Frame {
            settings,
            tape: text(LETTERS).tape,
            room: ROOM,
            bytes: vec![FILLED; settings.area()],
        },
        record: ZEROS,
        ask: Ask::Open { stripes },
    };
    let record = Record {
        count: stripes.count,
        ends: stripes.ends,
        ..ZEROS
    };
    if is_refused(settings.height, stripe_height) {
        call.hold(&plain(13))?;
        call.record = record;
        call.ask = Ask::Work {
            stripe: 0,
            budget: 1,
        };
        return call.hold(&plain(13));
    }
    let opened = Done {
        answer: theirs.total,
        record,
        bytes: vec![0; settings.area()],
    };
    call.step(Ok(opened))?;
    works(theirs, stripe_height, &mut call)
}

/// The first stripe, one in the middle, the last and the one behind it.
fn works(theirs: &Theirs, stripe_height: u32, call: &mut Call) -> Result<(), String> {
    let count = theirs.settings.height.div_ceil(stripe_height);
    let whole = theirs.whole();
    for stripe in [0, count / 2, count.saturating_sub(1), count] {
        call.ask = Ask::Work {
            stripe,
            budget: u32::MAX,
        };
        let due = due(theirs, &whole, stripe_height, stripe, call);
        call.step(due)?;
    }
    Ok(())
}

/// Every row y with y / height = the stripe is then as in the whole picture.
fn due(theirs: &Theirs, whole: &[u8], stripe_height: u32, stripe: u32, call: &Call) -> Outcome {
    let settings = &theirs.settings;
    let mut done = Done {
        answer: 0,
        record: call.record,
        bytes: call.frame.bytes.clone(),
    };
    let mut rows = (0..settings.height)
        .filter(|row| row / stripe_height == stripe)
        .peekable();
    if rows.peek().is_none() {
        return plain(12);
    }
    for row in rows.map(|row| row as usize) {
        let part = settings.bytes(&(row..row + 1));
        done.bytes[part.clone()].copy_from_slice(&whole[part]);
    }
    let counter = &mut done.record.counters[stripe as usize];
    done.answer = theirs.total - *counter as usize;
    *counter = theirs.total as u32;
    Ok(done)
}

//! Cases in which plausible readings of S-4 differ, with their answers.

use crate::count::Count;
use crate::draw::cases::{text, translucent};
use crate::draw::frame::Frame;
use crate::tape::ROOM;
use crate::work::call::{Ask, Call};
use crate::work::due;
use crate::work::record::{Record, Stripes, ZEROS, ending};
use reference::Original;

/// A picture's height, the count and the first entries that Open is handed, and its refusal, or 0.
type Opened = (u32, u32, &'static [u32], u32);

const OPENS: [Opened; 25] = [
    // A picture without rows has no stripe, whatever stands in the entries.
    (0, 0, &[], 0),
    (0, 0, &[0, 7], 0),
    (0, 1, &[0], 13),
    (0, 1, &[5], 13),
    (0, 2, &[0, 0], 13),
    (0, 65, &[], 13),
    // Any other has one at least.
    (1, 0, &[], 13),
    (1, 0, &[1], 13),
    (1, 1, &[1], 0),
    // Entries that are not used are not read.
    (1, 1, &[1, 7], 0),
    (1, 1, &[1, 1, 0, 1], 0),
    (1, 2, &[1, 7], 13),
    // Strictly, and from above 0.
    (1, 2, &[1, 1], 13),
    (1, 2, &[0, 1], 13),
    (2, 2, &[1, 2], 0),
    (2, 2, &[2, 1], 13),
    (9, 3, &[9, 8, 9], 13),
    (9, 3, &[5, 4, 9], 13),
    (9, 2, &[u32::MAX, 9], 13),
    // To the height, and no farther.
    (9, 2, &[3, 8], 13),
    (9, 2, &[3, 10], 13),
    (9, 3, &[3, 9, 10], 13),
    (9, 1, &[3, 9], 13),
    (4096, 2, &[4095, 4096], 0),
    (4096, 2, &[1, 4096], 0),
];

/// Counts beside an entry for each row of 64, and Open's refusal, or 0.
const COUNTS: [(u32, u32); 6] = [
    (64, 0),
    (63, 13),
    (65, 13),
    (255, 13),
    (256 + 64, 13),
    (u32::MAX, 13),
];

/// A picture's height, the record's count and first entries, a counter of it, the stripe, and Work's
/// refusal, or 0.
type Worked = (u32, u32, &'static [u32], (usize, u32), u32, u32);

const WORKS: [Worked; 22] = [
    // The entry that is not used comes back.
    (1, 1, &[1, 7], (0, 0), 0, 0),
    (9, 2, &[3, 9, 0, 5], (1, STROKES), 0, 0),
    // The record of zeros.
    (0, 0, &[], (0, 0), 0, 12),
    (0, 0, &[], (0, 0), u32::MAX, 12),
    (1, 0, &[], (0, 0), 0, 13),
    (9, 0, &[9], (0, 0), 0, 13),
    // A counter past the last stripe, of which there may be none.
    (0, 0, &[], (0, 1), 0, 14),
    (0, 0, &[], (63, 1), 64, 14),
    (2, 2, &[1, 2], (2, 1), 0, 14),
    (2, 2, &[1, 2, 3], (2, STROKES), 1, 14),
    (2, 2, &[1, 2], (63, 1), 1, 14),
    // A counter of a stripe, not only of the one asked for.
    (2, 2, &[1, 2], (1, STROKES), 1, 0),
    (2, 2, &[1, 2], (1, STROKES + 1), 0, 14),
    (2, 2, &[1, 2], (0, STROKES + 1), 1, 14),
    // 14 goes before 12, and 13 before both.
    (2, 2, &[1, 2], (2, 1), 2, 14),
    (2, 2, &[2, 1], (2, 1), 2, 13),
    (2, 65, &[1, 2], (63, 1), 64, 13),
    // No such stripe.
    (2, 2, &[1, 2, 3], (0, 0), 2, 12),
    (2, 2, &[1, 2], (0, 0), 63, 12),
    (2, 2, &[1, 2], (0, 0), 64, 12),
    (2, 2, &[1, 2], (0, 0), 256, 12),
    // Not the height's number of stripes.
    (2, 1, &[1, 2], (0, 0), 0, 13),
];

/// A letter, and its strokes with outline 1.
const LETTER: &str = "g";
const STROKES: u32 = 9;

pub fn compare(original: &Original) -> Count {
    let mut count = Count::new("readings of unequal stripes");
    let junk = Record {
        count: 3,
        ends: [5; 64],
        counters: [6; 64],
    };
    for (height, counted, entries, refusal) in OPENS {
        let stripes = stripes(counted, entries);
        let ask = Ask::Open { stripes };
        count.check(hold(original, height, junk, ask, refusal));
    }
    let rows: Vec<u32> = (1..=64).collect();
    for (counted, refusal) in COUNTS {
        let stripes = stripes(counted, &rows);
        let ask = Ask::Open { stripes };
        count.check(hold(original, 64, junk, ask, refusal));
    }
    for (height, counted, entries, (at, counter), stripe, refusal) in WORKS {
        let Stripes {
            count: counted,
            ends,
        } = stripes(counted, entries);
        let mut record = Record {
            count: counted,
            ends,
            ..ZEROS
        };
        record.counters[at] = counter;
        let ask = Ask::Work { stripe, budget: 5 };
        count.check(hold(original, height, record, ask, refusal));
    }
    count
}

fn stripes(count: u32, entries: &[u32]) -> Stripes {
    Stripes {
        count,
        ..ending(entries)
    }
}

fn hold(
    original: &Original,
    height: u32,
    record: Record,
    ask: Ask,
    refusal: u32,
) -> Result<(), String> {
    let settings = translucent(9, height);
    let call = Call {
        frame: Frame {
            settings,
            tape: text(LETTER).tape,
            room: ROOM,
            bytes: vec![0xa5; settings.area()],
        },
        record,
        ask,
    };
    let due = due::of_call(original, &call);
    let read = due.as_ref().err().map_or(0, |refusal| refusal.number);
    if read != refusal {
        return Err(format!(
            "{read} is read where {refusal} is said\n    {call}"
        ));
    }
    call.hold(&due)
}

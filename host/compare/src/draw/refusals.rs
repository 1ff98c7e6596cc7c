//! Calls with several things wrong at once: which of them is said, and that nothing is drawn.

use crate::count::Count;
use crate::draw::cases::translucent;
use crate::draw::due;
use crate::draw::frame::Frame;
use crate::draw::generate;
use crate::draw::settings::{
    LINE_HEIGHT_MAX, OUTLINE_CAP_MAX, SIDE_MARGIN_MAX, SIDE_MAX, SLANT_MAX, Settings,
};
use crate::random::Random;
use crate::refusal::{Refusal, Tally, plain};
use crate::tape::limits::stopped;
use crate::tape::{MOST_BYTES, ROOM, damage};
use crate::wrap;
use reference::Original;

/// Sets these calls apart from the frames of the same seed.
const DAMAGED: u64 = 0xda_d4a3;
const ROOMS: [usize; 4] = [ROOM, ROOM + 1, ROOM - 1, 0];

/// A setting put out of its range.
pub type Break = fn(&mut Settings);

pub const BREAKS: [Break; 30] = [
    |settings| settings.width = SIDE_MAX + 1,
    |settings| settings.width = 1 << 16,
    |settings| settings.width = 1 << 31,
    |settings| settings.width = u32::MAX,
    |settings| settings.height = SIDE_MAX + 1,
    |settings| settings.height = 1 << 16,
    |settings| settings.height = 1 << 31,
    |settings| settings.height = u32::MAX,
    |settings| settings.line_height = LINE_HEIGHT_MAX + 1,
    |settings| settings.line_height = u32::MAX,
    |settings| settings.alignment = 5,
    |settings| settings.alignment = 256,
    |settings| settings.alignment = 1 << 31,
    |settings| settings.alignment = u32::MAX,
    |settings| settings.glyph_mode = 2,
    |settings| settings.glyph_mode = 256,
    |settings| settings.glyph_mode = 1 << 31,
    |settings| settings.glyph_mode = u32::MAX,
    |settings| settings.house.side_margin = SIDE_MARGIN_MAX + 1,
    |settings| settings.house.side_margin = 1 << 16,
    |settings| settings.house.side_margin = 1 << 31,
    |settings| settings.house.side_margin = u32::MAX,
    |settings| settings.house.slant = SLANT_MAX + 1,
    |settings| settings.house.slant = 256,
    |settings| settings.house.slant = 1 << 31,
    |settings| settings.house.slant = u32::MAX,
    |settings| settings.house.outline_cap = OUTLINE_CAP_MAX + 1,
    |settings| settings.house.outline_cap = 256,
    |settings| settings.house.outline_cap = 1 << 31,
    |settings| settings.house.outline_cap = u32::MAX,
];

/// Every setting out of range, and none, with every buffer and every room, and with each tape that
/// is stopped and one that is not.
pub fn each(original: &Original) -> Count {
    let mut count = Count::new("refusals of Draw");
    let good = translucent(11, 7);
    let stopped = stopped().into_iter().map(|(tape, number, place)| {
        let refusal = Refusal { number, place };
        (tape, Some(refusal))
    });
    for (tape, wrong) in stopped.chain([(vec![0x02, 0x41], None)]) {
        for room in ROOMS {
            for short in [false, true] {
                let mut frame = Frame {
                    settings: good,
                    tape: tape.clone(),
                    room,
                    bytes: vec![0xa5; good.area() - usize::from(short)],
                };
                let due = match first(short, room, wrong) {
                    Some(refusal) => Err(refusal),
                    None => due::of_frame(original, &frame),
                };
                count.check(frame.hold(&due));
                for spoil in BREAKS {
                    frame.settings = good;
                    spoil(&mut frame.settings);
                    count.check(frame.hold(&plain(8)));
                }
            }
        }
    }
    count
}

/// The refusal that goes before the others, where no setting is out of range: the picture's, a long
/// tape's, the workspace's, and then the tape's own.
fn first(short: bool, room: usize, tape: Option<Refusal>) -> Option<Refusal> {
    let long = tape.is_some_and(|refusal| refusal.number == 10);
    let number = if short {
        9
    } else if long {
        10
    } else if room < ROOM {
        11
    } else {
        return tape;
    };
    Some(Refusal { number, place: 0 })
}

/// Damaged tapes, of which most are refused, now and then with other things wrong too. Shows how many
/// were due which refusal.
pub fn random(original: &Original, seed: u64, frames: u64) -> Count {
    let mut count = Count::new("frames of damaged tapes");
    let mut tally = Tally::default();
    for number in 0..frames {
        let mut random = Random::new(seed ^ DAMAGED, number);
        let (width, height) = (random.within_u32(0..=40), random.within_u32(0..=40));
        let frame = damaged(&mut random, width, height);
        let due = due::of_frame(original, &frame);
        tally.add(&due);
        let found = frame.hold(&due);
        count.check(found.map_err(|found| format!("seed {seed}, damaged tape {number}: {found}")));
    }
    println!("frames of damaged tapes: {tally}");
    count
}

/// A call of a picture of this size with a damaged tape, and now and then with other things wrong.
pub fn damaged(random: &mut Random, width: u32, height: u32) -> Frame {
    let mut frame = Frame {
        settings: generate::sized(random, width, height),
        tape: damage::tape(random),
        room: wrap::room(random),
        bytes: Vec::new(),
    };
    frame.bytes = generate::buffer(random, frame.settings.area());
    for _ in 0..random.within(0..=2) {
        match random.within(0..=11) {
            0 | 1 => random.pick(&BREAKS)(&mut frame.settings),
            2 => {
                let area = frame.settings.area().min(frame.bytes.len());
                let short = random.within(0..=area as i64) as usize;
                frame
                    .bytes
                    .truncate(random.pick(&[short, area.saturating_sub(1)]));
            }
            3 => frame.tape.resize(MOST_BYTES + 1, 0x0b),
            4 => frame.room = random.pick(&ROOMS),
            _ => {}
        }
    }
    frame
}

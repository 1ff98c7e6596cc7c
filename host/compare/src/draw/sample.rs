//! The Draws of the sample that the proved program `replay` replays, and what the original draws of
//! them; and how an entry and an answer of the sample are written.

use crate::digest::digest;
use crate::draw::due;
use crate::draw::frame::{Frame, Outcome};
use crate::draw::generate;
use crate::draw::settings::{
    House, LINE_HEIGHT_MAX, OUTLINE_CAP_MAX, SIDE_MARGIN_MAX, SIDE_MAX, SLANT_MAX,
};
use crate::house::generate::italic;
use crate::random::Random;
use crate::sample::{self, Due, Sample, most};
use crate::tape::{ROOM, damage};
use crate::wrap::cues::{self, Cue};
use oxideav_core::{Segment, SubtitleCue};
use reference::Original;
use std::ops::RangeInclusive;

/// Twenty-two are refused.
const SAMPLE: Sample = Sample {
    seed: 22,
    entries: 352,
    apart: 16,
};
/// Of so many captions the last has other house settings than the original's.
const HOUSE_APART: u64 = 3;
/// How long a tape may be, where its letters are not too many.
const SHORT: usize = 400;
/// What a buffer holds before the first call.
pub const FILLED: u8 = 0x5a;
/// The outlines, which each alignment meets in turn, and those at other house settings.
const OUTLINES: [u32; 4] = [1, 2, 0, 9];
const HOUSE_OUTLINES: [u32; 4] = [4, 3, 9, 1];

struct Entry {
    frame: Frame,
    due: Due,
}

/// What an entry of a job has besides its frame. A Draw has nothing of it.
#[derive(Default)]
pub struct Calls<'a> {
    /// The count of its stripes.
    pub count: u8,
    /// Their ends; where there are more, those are not used, and where there are fewer, the others are 0.
    pub ends: &'a [u32],
    /// How many calls it has.
    pub calls: u16,
    /// Its Works as they are written.
    pub works: &'a [u8],
}

/// The entries of the Draws.
pub fn entries() -> Vec<u8> {
    let mut bytes = Vec::new();
    for Entry { frame, .. } in all() {
        put(&mut bytes, &frame, Calls::default());
    }
    bytes
}

/// Puts an entry behind others: the settings in their order, of which width, height and side margin have
/// two bytes, slant and outline cap one, and the others four; a byte each of the count of stripes and of
/// how many entries of theirs follow; two bytes each of the job's calls, which a Draw has none of, of the
/// picture's buffer's length and of how many bytes follow, high byte first; and the entries, two bytes
/// each, the Works and the tape.
pub fn put(bytes: &mut Vec<u8>, frame: &Frame, job: Calls) {
    let settings = &frame.settings;
    for side in [settings.width, settings.height] {
        bytes.extend((side as u16).to_be_bytes());
    }
    bytes.extend(settings.default_color);
    bytes.extend(settings.outline_color);
    for number in [
        settings.line_height,
        settings.bottom_margin,
        settings.outline,
        settings.alignment,
        settings.glyph_mode,
    ] {
        bytes.extend(number.to_be_bytes());
    }
    let house = &settings.house;
    bytes.extend((house.side_margin as u16).to_be_bytes());
    bytes.extend([house.slant, house.outline_cap].map(|number| number as u8));
    bytes.extend([job.count, job.ends.len() as u8]);
    let follow = 2 * job.ends.len() + job.works.len() + frame.tape.len();
    let size = frame.bytes.len();
    for number in [job.calls, size as u16, follow as u16] {
        bytes.extend(number.to_be_bytes());
    }
    for end in job.ends {
        bytes.extend((*end as u16).to_be_bytes());
    }
    bytes.extend(job.works);
    bytes.extend(&frame.tape);
}

/// A line for each Draw.
pub fn answers(original: &Original) -> String {
    let mut text = String::new();
    for Entry { frame, due } in all() {
        let due = due.map(|segments| {
            let cue = SubtitleCue {
                segments,
                positioning: frame.settings.positioning(false),
            };
            due::drawn(original, &frame.settings, &cue, &frame.bytes)
        });
        answer(&mut text, due);
    }
    text
}

/// Writes the line of a call: its strokes and the digest of the buffer after it, or its refusal.
pub fn answer(text: &mut String, due: Outcome) {
    sample::answer(text, due.map(|drawn| (drawn.strokes, digest(drawn.bytes))));
}

fn all() -> impl Iterator<Item = Entry> {
    SAMPLE.all(|random, number, index| match index {
        Some(index) => refused(random, index),
        None => drawn(random, number),
    })
}

fn drawn(random: &mut Random, number: u64) -> Entry {
    let (frame, segments) = caption(random, number, 0..=58, SHORT);
    Entry {
        frame,
        due: Ok(segments),
    }
}

/// A cue of so many letters and at most so many bytes, on a small picture.
pub fn caption(
    random: &mut Random,
    number: u64,
    letters: RangeInclusive<i64>,
    most: usize,
) -> (Frame, Vec<Segment>) {
    let Cue { segments, tape } = loop {
        let cue = cue(random, letters.clone(), is_house(number));
        if cue.tape.len() <= most {
            break cue;
        }
    };
    let mut frame = small(random, tape);
    frame.settings.alignment = (number % 5) as u32;
    frame.settings.outline = OUTLINES[(number / 7 % 4) as usize];
    frame.settings.glyph_mode = (number / 3 % 2) as u32;
    if !random.one_in(6) {
        frame.settings.bottom_margin = random.within_u32(0..=12);
    }
    if is_house(number) {
        frame.settings.outline = HOUSE_OUTLINES[(number / 7 % 4) as usize];
        frame.settings.house = house(random, number / HOUSE_APART);
    }
    (frame, segments)
}

/// Whether the caption with this number has other house settings than the original's.
fn is_house(number: u64) -> bool {
    number % HOUSE_APART == HOUSE_APART - 1
}

/// A cue of so many letters; at other house settings in half of the cases in italic, so that the slant
/// is seen.
fn cue(random: &mut Random, letters: RangeInclusive<i64>, house: bool) -> Cue {
    let cue = if random.one_in(4) {
        cues::sized(random, letters)
    } else {
        generate::legible(random, letters)
    };
    if house && random.one_in(2) {
        italic(cue)
    } else {
        cue
    }
}

/// Each slant with each outline cap in turn, and a margin that a small picture shows mostly.
fn house(random: &mut Random, number: u64) -> House {
    let side_margin = match random.within(0..=7) {
        0 => 0,
        1 => SIDE_MARGIN_MAX,
        2 => random.within_u32(0..=SIDE_MARGIN_MAX),
        _ => random.within_u32(0..=30),
    };
    House {
        side_margin,
        slant: number as u32 % (SLANT_MAX + 1),
        outline_cap: number as u32 % (OUTLINE_CAP_MAX + 1),
    }
}

/// A picture of at most 64,000 bytes, and now and then a few bytes behind it.
fn small(random: &mut Random, tape: Vec<u8>) -> Frame {
    let (widths, heights) = match random.within(0..=19) {
        0 => (100..=160, 60..=100),
        1 | 2 => (0..=20, 0..=40),
        _ => (24..=100, 16..=60),
    };
    let (width, height) = (random.within_u32(widths), random.within_u32(heights));
    let settings = generate::sized(random, width, height);
    let behind = random.within(-20..=20).max(0) as usize;
    Frame {
        bytes: vec![FILLED; settings.area() + behind],
        settings,
        tape,
        room: ROOM,
    }
}

/// An entry that is refused: for its tape, each fault once and some twice, for a setting or for its
/// buffer.
fn refused(random: &mut Random, index: u64) -> Entry {
    let number = match index {
        0..7 => index as u32 + 1,
        7..10 => index as u32 - 6,
        10..20 => 8,
        _ => 9,
    };
    loop {
        let tape = damage::tape(random);
        let mut frame = small(random, tape);
        spoil(&mut frame, index);
        if let Err(refusal) = due::letters(&frame)
            && refusal.number == number
            && frame.tape.len() <= most(number, SHORT)
        {
            let due = Err(refusal);
            return Entry { frame, due };
        }
    }
}

fn spoil(frame: &mut Frame, index: u64) {
    let settings = &mut frame.settings;
    match index {
        10 => settings.width = SIDE_MAX + 1,
        11 => settings.height = SIDE_MAX + 1,
        12 => settings.line_height = LINE_HEIGHT_MAX + 1,
        13 => settings.alignment = 5,
        14 => settings.glyph_mode = 2,
        15 => (settings.width, settings.height) = (u16::MAX.into(), u16::MAX.into()),
        16 => settings.house.side_margin = SIDE_MARGIN_MAX + 1,
        17 => settings.house.slant = SLANT_MAX + 1,
        18 => settings.house.outline_cap = OUTLINE_CAP_MAX + 1,
        19 => {
            settings.house = House {
                side_margin: u16::MAX.into(),
                slant: u8::MAX.into(),
                outline_cap: u8::MAX.into(),
            }
        }
        20 => frame.bytes.truncate(settings.area().saturating_sub(1)),
        21 => frame.bytes.clear(),
        _ => {}
    }
}

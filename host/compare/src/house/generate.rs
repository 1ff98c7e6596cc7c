//! Random house settings, and pictures and cues in which they are seen.

use crate::draw::generate;
use crate::draw::settings::{House, OUTLINE_CAP_MAX, SIDE_MARGIN_MAX, SLANT_MAX, Settings};
use crate::random::Random;
use crate::tape::{WHITE, reading};
use crate::work;
use crate::work::record::Stripes;
use crate::wrap::cues::Cue;
use oxideav_core::Segment;

/// Settings within their ranges, of which the house settings are not the original's.
pub fn settings(random: &mut Random) -> Settings {
    let house = house(random);
    let settings = if random.one_in(2) {
        generate::settings(random)
    } else {
        // So wide that a line beside its margin is seen, or some of it.
        let width = house.side_margin + random.within_u32(0..=60);
        let height = random.within_u32(1..=50);
        generate::sized(random, width, height)
    };
    Settings {
        outline: outline(random),
        house,
        ..settings
    }
}

/// Such settings, now and then of a picture with 64 stripes, and stripes of one height.
pub fn striped(random: &mut Random) -> (Settings, Stripes) {
    let settings = settings(random);
    if random.one_in(40) {
        let (height, stripes) = work::generate::most_stripes(random);
        return (Settings { height, ..settings }, stripes);
    }
    (settings, work::generate::equal(random, settings.height))
}

/// Numbers of which one at least is not the original's.
pub fn house(random: &mut Random) -> House {
    loop {
        let house = House {
            side_margin: side_margin(random),
            slant: random.within_u32(0..=SLANT_MAX),
            outline_cap: random.within_u32(0..=OUTLINE_CAP_MAX),
        };
        if house != House::ORIGINAL {
            return house;
        }
    }
}

/// Often at an end of its range, beside one, or the original's and beside it.
fn side_margin(random: &mut Random) -> u32 {
    match random.within(0..=9) {
        0 => 0,
        1 => SIDE_MARGIN_MAX,
        2 => random.pick(&[1, 7, 9, SIDE_MARGIN_MAX - 1]),
        3 => House::ORIGINAL.side_margin,
        4..=6 => random.within_u32(0..=24),
        _ => random.within_u32(0..=SIDE_MARGIN_MAX),
    }
}

/// Around the caps mostly, now and then any.
pub fn outline(random: &mut Random) -> u32 {
    match random.within(0..=15) {
        0 => u32::MAX,
        1 => random.within_u32(0..=u32::MAX),
        _ => random.within_u32(0..=OUTLINE_CAP_MAX + 2),
    }
}

/// A cue of any kind, in half of the cases with italic around it.
pub fn cue(random: &mut Random) -> Cue {
    let cue = generate::cue(random);
    if random.one_in(2) { italic(cue) } else { cue }
}

/// The cue in italic, where it may have a list more.
pub fn italic(cue: Cue) -> Cue {
    let tape = [&[0x07], &cue.tape[..], &[0x00]].concat();
    if reading::read(&tape, WHITE).is_err() {
        return cue;
    }
    Cue {
        segments: vec![Segment::Italic(cue.segments)],
        tape,
    }
}

//! Random ends, those that keep the rule and those that break it, and small pictures.

use crate::draw::generate;
use crate::draw::settings::Settings;
use crate::house;
use crate::random::Random;
use crate::work;
use crate::work::record::{Ends, STRIPES, Stripes, ending};
use crate::wrap::cues::{self, Cue};

const MOST: u32 = STRIPES as u32;

/// Ends that keep the rule, broken, for a picture of this height.
type Way = fn(&mut Random, u32, Vec<u32>) -> Stripes;

/// Each way to break the rule. At height 0, where the rule leaves no end, some keep it.
pub const WAYS: [Way; 10] = [
    // Two equal ends, in a row.
    |random, _, mut ends| {
        let at = place(random, &mut ends);
        ends.insert(at, ends[at]);
        ending(&ends)
    },
    // An end that the next falls from.
    |random, _, mut ends| {
        let at = place(random, &mut ends);
        ends.insert(at, ends[at] + random.within_u32(1..=5));
        ending(&ends)
    },
    // A first end of 0.
    |random, _, mut ends| {
        if !ends.is_empty() {
            place(random, &mut ends);
        }
        ends.insert(0, 0);
        ending(&ends)
    },
    // A last end under the height.
    |random, _, mut ends| {
        let last = ends.pop().unwrap_or(1);
        let least = ends.last().unwrap_or(&0) + 1;
        if least < last && !random.one_in(4) {
            ends.push(random.within_u32(least..=last - 1));
        }
        ending(&ends)
    },
    // A last end over the height.
    |random, height, mut ends| {
        ends.pop();
        let some = random.within_u32(2..=40);
        ends.push(height + random.pick(&[1, some, 1 << 8, 1 << 12]));
        ending(&ends)
    },
    // No ends, whatever the entries are.
    |random, height, ends| Stripes {
        count: u32::from(height == 0) * random.within_u32(1..=MOST),
        ..ending(&ends)
    },
    // One stripe more than there may be, where entries that keep the rule fill the places.
    |random, height, ends| Stripes {
        count: MOST + 1,
        ..most(random, height, ends)
    },
    // Far more, now and then a right count in the low bits.
    |random, height, ends| {
        let some = random.within_u32(MOST + 2..=u32::MAX);
        let far = random.pick(&[MOST + 2, 1 << 7, u8::MAX.into(), some, 1 << 31, u32::MAX]);
        let low = random.pick(&[1 << 8, 1 << 16, 1 << 31]) + ends.len() as u32;
        Stripes {
            count: random.pick(&[far, low]),
            ..most(random, height, ends)
        }
    },
    // A count that is one short.
    |random, _, mut ends| {
        place(random, &mut ends);
        let stripes = ending(&ends);
        Stripes {
            count: stripes.count - 1,
            ..stripes
        }
    },
    // A count that is one more, with anything there.
    |random, height, mut ends| {
        let count = ends.len() as u32 + 1;
        ends.push(random.pick(&[0, height, height + 1, 1, u32::MAX]));
        Stripes {
            count,
            ..ending(&ends)
        }
    },
];

/// One of the ends, of which there then is one at least, and one fewer than there may be at most.
fn place(random: &mut Random, ends: &mut Vec<u32>) -> usize {
    if ends.len() == STRIPES {
        ends.remove(0);
    }
    if ends.is_empty() {
        ends.push(0);
    }
    random.within(0..=ends.len() as i64 - 1) as usize
}

/// As many stripes as there may be, mostly, where the picture has rows enough.
fn most(random: &mut Random, height: u32, ends: Vec<u32>) -> Stripes {
    if height < MOST || random.one_in(4) {
        return ending(&ends);
    }
    ending(&cut(random, height, MOST))
}

/// Settings of a small picture, in a third with other house settings than the original's.
pub fn settings(random: &mut Random) -> Settings {
    let width = match random.within(0..=15) {
        0 => random.within_u32(0..=8),
        1 => random.within_u32(61..=160),
        _ => random.within_u32(9..=60),
    };
    let height = height(random);
    let settings = generate::sized(random, width, height);
    if !random.one_in(3) {
        return settings;
    }
    Settings {
        outline: house::generate::outline(random),
        house: house::generate::house(random),
        ..settings
    }
}

fn height(random: &mut Random) -> u32 {
    match random.within(0..=23) {
        0 | 1 => 0,
        2 => random.within_u32(1..=4),
        3 => MOST,
        4 | 5 => random.within_u32(MOST - 2..=MOST + 6),
        6..=8 => random.within_u32(MOST..=130),
        _ => random.within_u32(5..=60),
    }
}

/// A cue of few letters mostly; with italic around it in a quarter.
pub fn cue(random: &mut Random) -> Cue {
    let cue = match random.within(0..=15) {
        0 => cues::sized(random, 0..=20),
        1..=4 => generate::legible(random, 1..=40),
        _ => generate::legible(random, 1..=12),
    };
    if random.one_in(4) {
        house::generate::italic(cue)
    } else {
        cue
    }
}

/// Stripes that keep the rule, in half of the cases with numbers in the other entries.
pub fn stripes(random: &mut Random, height: u32) -> Stripes {
    let mut stripes = ending(&ends(random, height));
    if random.one_in(2) {
        junk(random, &mut stripes, u32::MAX);
    }
    stripes
}

/// Stripes that break the rule, in half of the cases with numbers in the other entries.
pub fn broken(random: &mut Random, height: u32) -> Stripes {
    let way = random.pick(&WAYS);
    let ends = ends(random, height);
    let mut stripes = way(random, height, ends);
    if random.one_in(2) {
        junk(random, &mut stripes, u32::MAX);
    }
    stripes
}

/// Ends that keep the rule.
pub fn ends(random: &mut Random, height: u32) -> Vec<u32> {
    if height == 0 {
        return Vec::new();
    }
    match random.within(0..=11) {
        0 => vec![height],
        1 if height <= MOST => (1..=height).collect(),
        2 | 3 if height >= MOST => cut(random, height, MOST),
        2..=6 => thin_below(random, height),
        7 => thin_above(random, height),
        8 => {
            let equal = work::generate::equal(random, height);
            equal.used().unwrap_or_default().to_vec()
        }
        _ => {
            let count = random.within_u32(1..=height.min(12));
            cut(random, height, count)
        }
    }
}

/// So many stripes of any heights.
pub fn cut(random: &mut Random, height: u32, count: u32) -> Vec<u32> {
    let mut ends: Vec<u32> = (1..height).collect();
    while ends.len() as u32 >= count {
        ends.remove(random.within(0..=ends.len() as i64 - 1) as usize);
    }
    ends.push(height);
    ends
}

/// A tall stripe, and under it thin ones to the bottom.
fn thin_below(random: &mut Random, height: u32) -> Vec<u32> {
    let rows = random.within_u32(1..=3);
    let most = (height.div_ceil(rows) - 1).min(MOST - 1);
    let thin = random.within_u32(0..=most);
    let mut ends: Vec<u32> = (0..=thin).map(|up| height - up * rows).collect();
    ends.reverse();
    ends
}

/// Thin stripes from the top, and a tall one under them.
fn thin_above(random: &mut Random, height: u32) -> Vec<u32> {
    let thin = random.within_u32(0..=(height - 1).min(MOST - 1));
    (1..=thin).chain([height]).collect()
}

/// Puts numbers up to this one into entries that are not used, behind those that are.
pub fn junk(random: &mut Random, stripes: &mut Stripes, most: u32) {
    let written = stripes.ends.iter().rposition(|&end| end != 0);
    let from = stripes.stripes().max(written.map_or(0, |last| last + 1));
    fill(random, &mut stripes.ends[from..], most);
}

/// Any numbers; or some that go on where the ends stop, or with 0, or one over and over.
pub fn fill(random: &mut Random, entries: &mut [u32], most: u32) {
    let one = random.within_u32(0..=most);
    match random.within(0..=3) {
        0 => entries.fill(one),
        1 => {
            let from = random.within_u32(0..=130);
            for (entry, number) in entries.iter_mut().zip(from..) {
                *entry = number;
            }
        }
        2 => {
            if let Some(entry) = entries.last_mut() {
                *entry = one;
            }
        }
        _ => {
            for entry in entries {
                *entry = random.within_u32(0..=most);
            }
        }
    }
}

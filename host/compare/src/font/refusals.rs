//! Strokes that the proved font must refuse: it answers false and leaves every byte.

use crate::count::Count;
use crate::fenced::{Fenced, Lent};
use crate::font::generate;
use crate::font::picture::{as_proved, fence};
use crate::font::proved::{self, ORIGIN, PLACE_END, PLACE_MIN, Part, SIDE_MAX, Stroke};
use crate::font::strokes::slanted;
use crate::random::Random;
use reference::settings::SLANT_MAX;

/// How many random strokes are refused beside those at the limits.
const RANDOM: u64 = 20_000;
/// Sets these cases apart from the random pictures of the same seed.
const APART: u64 = 0x5ef7_5a15;
/// The bytes at hand: enough for one row or one column just past the limit.
const BYTES: usize = 4 * (SIDE_MAX as usize + 1);

/// A call, lent the first `len` bytes.
#[derive(Clone, Copy, Debug)]
struct Call {
    part: Part,
    len: usize,
    stroke: Stroke,
}

pub fn compare(seed: u64) -> Count {
    let mut count = Count::new("refusals");
    for (bold, slant) in slanted() {
        count.check(accepted(dot(bold, slant)));
        for call in just_past(dot(bold, slant)) {
            count.check(refused(call));
        }
    }
    for number in 0..RANDOM {
        let call = faulty(&mut Random::new(seed ^ APART, number));
        count.check(
            refused(call).map_err(|found| format!("seed {seed}, refusal {number}: {found}")),
        );
    }
    count
}

/// A good call: the missing glyph lights the one pixel of the part, with every slant.
fn dot(bold: bool, slant: u32) -> Call {
    Call {
        part: Part {
            width: 1,
            rows: 1,
            first: 0,
        },
        len: BYTES,
        stroke: Stroke {
            mode: 0,
            code: 256,
            bold,
            slant,
            color: 0xffff_ffff,
            x: ORIGIN - 6,
            y: ORIGIN + 10,
        },
    }
}

/// The good call with one thing wrong: each limit passed by one, and by much.
fn just_past(good: Call) -> Vec<Call> {
    let mut calls = Vec::new();
    let much = [1 << 16, 1 << 27, 1 << 30, 1 << 31, u32::MAX];
    for side in [SIDE_MAX + 1].into_iter().chain(much) {
        calls.extend([
            with(good, |call| call.part.width = side),
            with(good, |call| call.part.rows = side),
            with(good, |call| call.part.first = side),
        ]);
    }
    for slant in [SLANT_MAX + 1, 16, 256, 258].into_iter().chain(much) {
        calls.push(with(good, |call| call.stroke.slant = slant));
    }
    for place in [
        0,
        1,
        PLACE_MIN - 1,
        PLACE_END,
        PLACE_END + 1,
        1 << 31,
        u32::MAX,
    ] {
        calls.extend([
            with(good, |call| call.stroke.x = place),
            with(good, |call| call.stroke.y = place),
        ]);
    }
    for (width, rows) in [(1, 1), (8, 16), (SIDE_MAX, 1), (1, SIDE_MAX)] {
        let area = 4 * width as usize * rows as usize;
        calls.extend([0, 1, area - 4, area - 1].map(|len| {
            with(good, |call| {
                call.len = len;
                call.part.width = width;
                call.part.rows = rows;
            })
        }));
    }
    calls.push(with(good, |call| {
        call.part.width = SIDE_MAX;
        call.part.rows = SIDE_MAX;
    }));
    calls
}

fn with(mut call: Call, change: impl FnOnce(&mut Call)) -> Call {
    change(&mut call);
    call
}

/// A random call with one to three things wrong.
fn faulty(random: &mut Random) -> Call {
    let width = random.within_u32(1..=30);
    let rows = random.within_u32(1..=30);
    let first = random.within_u32(0..=SIDE_MAX);
    let stroke = as_proved(&generate::stroke(random, width, first + rows));
    let area = 4 * width * rows;
    let mut call = Call {
        part: Part { width, rows, first },
        len: area as usize,
        stroke,
    };
    for _ in 0..random.within(1..=3) {
        match random.within(0..=8) {
            0 => call.part.width = past(random, SIDE_MAX),
            1 => call.part.rows = past(random, SIDE_MAX),
            2 => call.part.first = past(random, SIDE_MAX),
            3 => call.stroke.x = past(random, PLACE_END - 1),
            4 => call.stroke.y = past(random, PLACE_END - 1),
            5 => call.stroke.x = random.within_u32(0..=PLACE_MIN - 1),
            6 => call.stroke.y = random.within_u32(0..=PLACE_MIN - 1),
            7 => call.stroke.slant = past(random, SLANT_MAX),
            _ => call.len = random.within_u32(0..=area - 1) as usize,
        }
    }
    call
}

fn past(random: &mut Random, limit: u32) -> u32 {
    let most = if random.one_in(2) {
        limit + 16
    } else {
        u32::MAX
    };
    random.within_u32(limit + 1..=most)
}

fn accepted(call: Call) -> Result<(), String> {
    let mut fenced = Fenced::new(&[0; BYTES], fence(SIDE_MAX));
    let own = 4 * call.part.width as usize * call.part.rows as usize;
    let Lent { answer, kept } = fenced.lend(0..own, call.len - own, |bytes| {
        proved::stroke(bytes, call.part, call.stroke)
    });
    if answer && kept && fenced.inside()[..own] == [255; 4] {
        Ok(())
    } else {
        Err(format!("{call:?} should draw one white pixel"))
    }
}

/// Both as a whole stroke and as all its rows.
fn refused(call: Call) -> Result<(), String> {
    refused_by(call, proved::stroke)?;
    refused_by(call, |bytes, part, stroke| {
        proved::stroke_rows(bytes, part, stroke, 16)
    })
}

fn refused_by(call: Call, draw: impl Fn(&mut [u8], Part, Stroke) -> bool) -> Result<(), String> {
    let mut fenced = Fenced::new(&[0; BYTES], 4096);
    let Lent { answer, kept } =
        fenced.lend(0..0, call.len, |bytes| draw(bytes, call.part, call.stroke));
    match (answer, kept) {
        (false, true) => Ok(()),
        (true, _) => Err(format!("{call:?} was not refused")),
        (false, false) => Err(format!("{call:?} was refused but wrote")),
    }
}

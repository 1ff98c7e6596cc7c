//! Jobs that are not random: small cues stroke by stroke in every style, and cues with as many
//! letters as there may be.

use crate::count::Count;
use crate::draw::cases::{marked, translucent};
use crate::draw::limits::{narrow, tall, wide};
use crate::draw::settings::{GLYPH_MODES, Settings};
use crate::font::strokes::STYLES;
use crate::tape::segments::each_letter;
use crate::work::job::Job;
use crate::work::kinds::Kinds;
use crate::work::record;
use crate::wrap::cues::{self, Cue};
use crate::wrap::limits;
use oxideav_core::Segment;
use reference::Original;

/// Of one line, whose outline reaches the last row, and of three with a blank one; of letters that glyph
/// mode 1 replaces; and of letters without ink, before, between and behind others, and alone.
const TEXTS: [&str; 5] = [
    "g\u{100}",
    "B\n\nj",
    "\u{201c}\u{2014}",
    "\u{ad}\nA\u{1}B\t\u{a0}",
    "\u{a0}",
];
const OUTLINES: [u32; 4] = [0, 1, 2, 9];
/// A picture so low that letters reach below it, and one that holds them.
const HEIGHTS: [u32; 2] = [3, 45];
const STRIPE_HEIGHTS: [u32; 6] = [1, 2, 5, 16, 44, u32::MAX];
/// The bytes behind a small picture: more than a row.
const BEHIND: usize = 200;
/// On the stripes of a long cue.
const BUDGETS: [u32; 5] = [1, 4000, 0, 30_001, 1];
/// How many stripes a long cue has, or nearly.
const STRIPES: u32 = 5;
/// What a buffer holds before the job.
const FILLED: u8 = 0xa5;

pub fn compare(original: &Original) -> Count {
    let mut count = Count::new("jobs stroke by stroke");
    for words in TEXTS {
        for (bold, italic) in STYLES {
            let segments = || marked(bold, italic, two_colors(words));
            for (height, mode) in HEIGHTS
                .into_iter()
                .flat_map(|height| GLYPH_MODES.map(|mode| (height, mode)))
            {
                small(original, &mut count, height, mode, || {
                    cues::shortest(segments())
                });
            }
        }
    }
    for settings in [wide(), narrow(), tall()] {
        for cue in limits::full() {
            count.check(long(original, settings, cue));
        }
    }
    count
}

/// The letters, of which the last has another color.
fn two_colors(words: &str) -> Vec<Segment> {
    let mut segments = each_letter(words);
    if let Some(last) = segments.pop() {
        segments.push(Segment::Color {
            rgb: (20, 220, 120),
            children: vec![last],
        });
    }
    segments
}

fn small(
    original: &Original,
    count: &mut Count,
    height: u32,
    glyph_mode: u32,
    cue: impl Fn() -> Cue,
) {
    for outline in OUTLINES {
        for stripe_height in STRIPE_HEIGHTS {
            let settings = Settings {
                outline,
                alignment: 1,
                glyph_mode,
                ..translucent(27, height)
            };
            count.check(each_stroke(original, settings, cue(), stripe_height));
        }
    }
}

/// Does one stroke at a time on each stripe, and tries once more when nothing is left.
pub fn each_stroke(
    original: &Original,
    settings: Settings,
    cue: Cue,
    stripe_height: u32,
) -> Result<(), String> {
    let bytes = vec![FILLED; settings.area() + BEHIND];
    let stripes = record::equal(settings.height, stripe_height);
    let mut job = Job::open(original, settings, cue, bytes, stripes)?;
    let kinds = &mut Kinds::default();
    for _ in 0..=job.theirs.total {
        job.each(0..job.stripes(), 1, kinds)?;
    }
    job.finish(0..job.stripes(), kinds)
}

/// Does few and many strokes on each stripe but the last, and then the rest, there all at once.
pub fn long(original: &Original, settings: Settings, cue: Cue) -> Result<(), String> {
    let stripes = record::equal(settings.height, settings.height.div_ceil(STRIPES));
    let bytes = vec![FILLED; settings.area()];
    let mut job = Job::open(original, settings, cue, bytes, stripes)?;
    let kinds = &mut Kinds::default();
    for budget in BUDGETS {
        job.each(0..job.stripes().saturating_sub(1), budget, kinds)?;
    }
    job.finish(0..job.stripes(), kinds)
}

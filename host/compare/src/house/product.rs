//! Every slant with every outline cap, every alignment and side margins at both ends and the original's.

use crate::count::Count;
use crate::draw::cases::{marked, translucent};
use crate::draw::frame::Frame;
use crate::draw::settings::{
    ALIGNMENTS, House, OUTLINE_CAP_MAX, SIDE_MARGIN_MAX, SLANT_MAX, Settings,
};
use crate::house::kinds::Kinds;
use crate::tape::ROOM;
use crate::tape::segments::each_letter;
use crate::work::job::Job;
use crate::work::{self, record, steps};
use crate::wrap::cues::{self, Cue};
use oxideav_core::{Segment, SubtitleCue};
use reference::Original;

const SIDE_MARGINS: [u32; 3] = [0, House::ORIGINAL.side_margin, SIDE_MARGIN_MAX];
/// Under the caps, at the highest, and over all.
const OUTLINES: [u32; 3] = [1, OUTLINE_CAP_MAX, u32::MAX];
/// A line of four letters, and four pixels.
const NARROW: u32 = 36;
/// Two lines, and some of the outline over them.
const HEIGHT: u32 = 38;
/// Rows of a stripe: of each line there are several, and some of both lines.
const STRIPE_HEIGHT: u32 = 7;
/// On each stripe, before the rest: into the first letter, out of it, and into the third.
const BUDGETS: [u32; 3] = [1, 12, 58];
/// What a buffer holds before a call.
const FILLED: u8 = 0xa5;

/// By Draw: in a narrow picture, and in one that a line beside the margin stands in.
pub fn frames(original: &Original) -> Count {
    const NAME: &str = "frames at each slant and outline cap";
    let mut count = Count::new(NAME);
    let mut kinds = Kinds::default();
    for settings in each() {
        let widths = [NARROW, settings.width];
        for (width, outline) in widths
            .into_iter()
            .flat_map(|width| OUTLINES.map(|o| (width, o)))
        {
            let settings = Settings {
                width,
                outline,
                ..settings
            };
            count.check(frame(original, settings, &mut kinds));
        }
    }
    kinds.show(NAME);
    count
}

/// By a job, some letters at a time and, for every slant with every cap, a stroke at a time.
pub fn jobs(original: &Original) -> Count {
    const NAME: &str = "jobs at each slant and outline cap";
    let mut count = Count::new(NAME);
    let mut kinds = Kinds::default();
    for settings in each() {
        count.check(job(original, settings, &mut kinds));
        if settings.house.side_margin == 0 && settings.alignment == 2 {
            count.check(steps::each_stroke(
                original,
                settings,
                slanted(",\u{100}"),
                5,
            ));
        }
    }
    kinds.show(NAME);
    count
}

fn each() -> Vec<Settings> {
    let mut each = Vec::new();
    for (slant, outline_cap) in
        (0..=SLANT_MAX).flat_map(|slant| (0..=OUTLINE_CAP_MAX).map(move |cap| (slant, cap)))
    {
        for side_margin in SIDE_MARGINS {
            each.extend(ALIGNMENTS.map(|alignment| Settings {
                alignment,
                outline: u32::MAX,
                house: House {
                    side_margin,
                    slant,
                    outline_cap,
                },
                ..translucent(side_margin + NARROW, HEIGHT)
            }));
        }
    }
    each
}

/// Upright letters, italic ones that reach under the base line, and bold italic ones on a line of their
/// own.
fn words() -> Cue {
    let mut segments = each_letter("Hg");
    segments.extend(marked(false, true, each_letter(",\u{100}\n")));
    segments.extend(marked(true, true, each_letter("Åj")));
    cues::shortest(segments)
}

fn slanted(words: &str) -> Cue {
    cues::shortest(vec![Segment::Italic(each_letter(words))])
}

fn frame(original: &Original, settings: Settings, kinds: &mut Kinds) -> Result<(), String> {
    let Cue { segments, tape } = words();
    let frame = Frame {
        settings,
        tape,
        room: ROOM,
        bytes: vec![FILLED; settings.area()],
    };
    let cue = SubtitleCue {
        segments,
        positioning: settings.positioning(false),
    };
    kinds.hold(original, &frame, &cue)
}

fn job(original: &Original, settings: Settings, kinds: &mut Kinds) -> Result<(), String> {
    let bytes = vec![FILLED; settings.area()];
    let stripes = record::equal(settings.height, STRIPE_HEIGHT);
    let mut job = Job::open(original, settings, words(), bytes, stripes)?;
    let works = &mut work::kinds::Kinds::default();
    for budget in BUDGETS {
        job.each(0..job.stripes(), budget, works)?;
    }
    job.finish(0..job.stripes(), works)?;
    kinds.job(&job);
    Ok(())
}

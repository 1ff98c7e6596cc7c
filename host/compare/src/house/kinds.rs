//! What frames at other house settings met, and in how many the numbers are seen.

use crate::draw::due;
use crate::draw::frame::Frame;
use crate::draw::settings::{House, OUTLINE_CAP_MAX, SIDE_MARGIN_MAX, SLANT_MAX, Settings};
use crate::work::job::Job;
use oxideav_core::SubtitleCue;
use reference::Original;
use std::collections::BTreeMap;

type Back = (&'static str, fn(House) -> House);

/// The numbers put back to the original's: all of them, and each alone.
const BACK: [Back; 4] = [
    ("at 8, 2, 2", |_| House::ORIGINAL),
    ("with side margin 8", |house| House {
        side_margin: House::ORIGINAL.side_margin,
        ..house
    }),
    ("with slant 2", |house| House {
        slant: House::ORIGINAL.slant,
        ..house
    }),
    ("with outline cap 2", |house| House {
        outline_cap: House::ORIGINAL.outline_cap,
        ..house
    }),
];

const SLANTS: usize = SLANT_MAX as usize + 1;
const CAPS: usize = OUTLINE_CAP_MAX as usize + 1;

#[derive(Default)]
pub struct Kinds {
    frames: u64,
    /// By slant and outline cap.
    met: [[u64; CAPS]; SLANTS],
    /// Side margins at either end of the range.
    ends: [u64; 2],
    unlike: [u64; BACK.len()],
}

impl Kinds {
    /// Holds a Draw to what is drawn of the cue, and counts it where they agree.
    pub fn hold(
        &mut self,
        original: &Original,
        frame: &Frame,
        cue: &SubtitleCue,
    ) -> Result<(), String> {
        let settings = frame.settings;
        let due = due::drawn(original, &settings, cue, &frame.bytes);
        let drawn = due.bytes.clone();
        frame.hold(&Ok(due))?;
        self.add(settings.house, &drawn, |house| {
            let settings = Settings { house, ..settings };
            due::picture(original, &settings, cue, &frame.bytes)
        });
        Ok(())
    }

    /// Counts a job that agrees, by its whole picture.
    pub fn job(&mut self, job: &Job) {
        let theirs = &job.theirs;
        let at = |house| theirs.whole_at(house);
        self.add(theirs.settings.house, &theirs.whole(), at);
    }

    /// Counts a picture. `at` draws the same at other numbers.
    fn add(&mut self, house: House, drawn: &[u8], at: impl Fn(House) -> Vec<u8>) {
        self.frames += 1;
        self.met[house.slant as usize][house.outline_cap as usize] += 1;
        for (count, end) in self.ends.iter_mut().zip([0, SIDE_MARGIN_MAX]) {
            *count += u64::from(house.side_margin == end);
        }
        for (count, (_, back)) in self.unlike.iter_mut().zip(BACK) {
            let back = back(house);
            *count += u64::from(back != house && at(back) != drawn);
        }
    }

    pub fn show(&self, frames: &str) {
        let least = self.met.iter().flatten().min().unwrap_or(&0);
        let [none, most] = self.ends;
        let names = BACK.iter().map(|(name, _)| name);
        let unlike: BTreeMap<_, _> = names.zip(self.unlike).collect();
        println!(
            "{frames}: {} agree, each slant with each outline cap at least {least} times, side margin 0 \
             {none} times and {SIDE_MARGIN_MAX} {most} times; unlike the same {unlike:?}",
            self.frames
        );
    }
}

//! What the random jobs met.

use crate::draw::settings::Settings;
use crate::refusal::Tally;
use crate::work::call::{Ask, Call, Done, Outcome};
use crate::work::record::{Ends, Record, STRIPES};
use crate::work::theirs::Theirs;
use std::collections::BTreeMap;

/// A Work that is not refused.
struct Met<'a> {
    settings: &'a Settings,
    total: usize,
    /// Of each letter without ink, how many strokes come before it.
    inkless: &'a [usize],
    /// How many of its letters glyph mode 1 replaces.
    curly: usize,
    stripe: usize,
    budget: usize,
    call: &'a Call,
    done: &'a Done,
}

type Kind = (&'static str, fn(&Met) -> bool);

const KINDS: [Kind; 15] = [
    ("something to see", |met| met.seen()),
    ("budget 0", |met| met.budget == 0),
    ("budget 1", |met| met.budget == 1),
    ("budget over what is left", |met| {
        met.budget > met.done.answer
    }),
    ("nothing left", |met| met.from() == met.total),
    ("stopped inside a letter", |met| met.inside(met.to())),
    ("stopped inside a letter, and seen", |met| {
        met.inside(met.to()) && met.seen()
    }),
    ("begun and stopped inside letters, and seen", |met| {
        met.inside(met.from()) && met.inside(met.to()) && met.seen()
    }),
    ("begun at a letter without ink, and seen", |met| {
        met.inkless.contains(&met.from()) && met.seen()
    }),
    ("stopped at a letter without ink, and seen", |met| {
        met.inkless.contains(&met.to()) && met.seen()
    }),
    ("passed a letter without ink, and seen", |met| {
        let inside = met.from() + 1..met.to();
        met.inkless.iter().any(|before| inside.contains(before)) && met.seen()
    }),
    ("letters on lines, none with ink", |met| {
        !met.inkless.is_empty() && met.total == 0
    }),
    ("glyph mode 1", |met| met.settings.glyph_mode == 1),
    ("letters replaced, and seen", |met| {
        met.settings.glyph_mode == 1 && met.curly > 0 && met.seen()
    }),
    ("counter and budget past 32 bits", |met| {
        met.from() + met.budget > u32::MAX as usize
    }),
];

impl Met<'_> {
    fn from(&self) -> usize {
        self.call.record.counters[self.stripe] as usize
    }

    fn to(&self) -> usize {
        self.done.record.counters[self.stripe] as usize
    }

    /// Whether a count of strokes ends inside a letter's.
    fn inside(&self, strokes: usize) -> bool {
        !strokes.is_multiple_of(self.settings.strokes())
    }

    fn seen(&self) -> bool {
        self.call.frame.bytes != self.done.bytes
    }
}

type Finish = (&'static str, fn(&Settings, &Record, &[u8]) -> bool);

const FINISHES: [Finish; 6] = [
    ("something to see", |_, _, whole| lit(whole)),
    ("no stripe", |settings, _, _| settings.height == 0),
    ("one stripe", |_, record, _| record.stripes() == 1),
    ("64 stripes", |_, record, _| record.stripes() == STRIPES),
    ("last stripe shorter", |_, record, _| {
        let heights = record.heights();
        heights.last() < heights.first()
    }),
    ("lit on both sides of a cut", |settings, record, whole| {
        cuts(record).any(|cut| {
            let sides = [cut - 1..cut, cut..cut + 1];
            sides.iter().all(|row| lit(&whole[settings.bytes(row)]))
        })
    }),
];

/// The first rows of the stripes but the first.
fn cuts(record: &Record) -> impl Iterator<Item = usize> {
    let ends = record.used().unwrap_or_default();
    let (_, ends) = ends.split_last().unwrap_or((&0, &[]));
    ends.iter().map(|&end| end as usize)
}

fn lit(bytes: &[u8]) -> bool {
    bytes.iter().any(|&byte| byte != 0)
}

#[derive(Default)]
pub struct Kinds {
    works: Tally,
    strokes: usize,
    met: [u64; KINDS.len()],
    jobs: u64,
    finished: [u64; FINISHES.len()],
}

impl Kinds {
    /// Counts a Work of which this is due.
    pub fn add(&mut self, theirs: &Theirs, call: &Call, due: &Outcome) {
        self.works.add(due);
        let (Ok(done), Ask::Work { stripe, budget }) = (due, call.ask) else {
            return;
        };
        self.strokes += done.answer;
        let met = Met {
            settings: &theirs.settings,
            total: theirs.total,
            inkless: &theirs.inkless,
            curly: theirs.curly(),
            stripe: stripe as usize,
            budget: budget as usize,
            call,
            done,
        };
        for (count, (_, kind)) in self.met.iter_mut().zip(KINDS) {
            *count += u64::from(kind(&met));
        }
    }

    /// Counts a job whose stripes are all done, which makes this picture.
    pub fn finished(&mut self, settings: &Settings, record: &Record, whole: &[u8]) {
        self.jobs += 1;
        for (count, (_, kind)) in self.finished.iter_mut().zip(FINISHES) {
            *count += u64::from(kind(settings, record, whole));
        }
    }

    /// How many Works and finished jobs of each kind there were.
    pub fn counts(&self) -> impl Iterator<Item = (&'static str, u64)> {
        let works = KINDS.map(|(name, _)| name).into_iter().zip(self.met);
        let jobs = FINISHES
            .map(|(name, _)| name)
            .into_iter()
            .zip(self.finished);
        works.chain(jobs)
    }

    /// Shows what jobs of this kind met.
    pub fn show(&self, jobs: &str) {
        let met = named(KINDS.map(|(name, _)| name), self.met);
        let finished = named(FINISHES.map(|(name, _)| name), self.finished);
        println!(
            "Works of {jobs}: {}, of {} strokes, among them {met:?}",
            self.works, self.strokes
        );
        println!("{jobs} finished: {}, among them {finished:?}", self.jobs);
    }
}

fn named<const N: usize>(
    names: [&'static str; N],
    counts: [u64; N],
) -> BTreeMap<&'static str, u64> {
    names.into_iter().zip(counts).collect()
}

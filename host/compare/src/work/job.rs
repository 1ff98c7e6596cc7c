//! A job: an Open, and Works of which each gets what the call before it left.

use crate::draw::frame::Frame;
use crate::draw::settings::Settings;
use crate::refusal::plain;
use crate::tape::ROOM;
use crate::work::call::{Ask, Call, Done, Outcome};
use crate::work::due;
use crate::work::kinds::Kinds;
use crate::work::record::{Ends, Record, STRIPES, Stripes, unused};
use crate::work::theirs::Theirs;
use crate::wrap::cues::Cue;
use reference::Original;
use std::mem;

pub struct Job<'a> {
    pub theirs: Theirs<'a>,
    /// The next call.
    call: Call,
    /// The accepted budgets of each stripe, summed.
    budgets: [u64; STRIPES],
}

/// A Work: the stripe, the budget, and the bytes of the workspace that it is lent.
#[derive(Clone, Copy)]
pub struct Work {
    pub stripe: u32,
    pub budget: u32,
    pub room: usize,
}

impl<'a> Job<'a> {
    /// Opens a job on these bytes, with a record that holds other numbers before.
    pub fn open(
        original: &'a Original,
        settings: Settings,
        cue: Cue,
        bytes: Vec<u8>,
        stripes: Stripes,
    ) -> Result<Job<'a>, String> {
        let mut job = Job {
            theirs: Theirs::new(original, settings, cue.segments),
            call: Call {
                frame: Frame {
                    settings,
                    tape: cue.tape,
                    room: ROOM,
                    bytes,
                },
                record: Record {
                    count: !stripes.count,
                    ends: stripes.ends.map(|end| !end),
                    counters: [u32::MAX; STRIPES],
                },
                ask: Ask::Open { stripes },
            },
            budgets: [0; STRIPES],
        };
        let due = due::of_cue(&job.theirs, &job.call);
        job.call.step(due)?;
        Ok(job)
    }

    pub fn record(&self) -> &Record {
        &self.call.record
    }

    pub fn stripes(&self) -> usize {
        self.call.record.stripes()
    }

    /// Makes a Work and holds it to the original's picture after the stripe's first strokes.
    pub fn work(&mut self, work: Work, kinds: &mut Kinds) -> Result<(), String> {
        let Work {
            stripe,
            budget,
            room,
        } = work;
        self.call.ask = Ask::Work { stripe, budget };
        self.call.frame.room = room;
        let due = self.due(stripe, budget);
        kinds.add(&self.theirs, &self.call, &due);
        self.call.step(due)
    }

    /// Works with one budget on each of the stripes.
    pub fn each(
        &mut self,
        stripes: impl Iterator<Item = usize>,
        budget: u32,
        kinds: &mut Kinds,
    ) -> Result<(), String> {
        for stripe in stripes {
            let work = Work {
                stripe: stripe as u32,
                budget,
                room: ROOM,
            };
            self.work(work, kinds)?;
        }
        Ok(())
    }

    /// Works on all stripes until nothing is left, and holds the picture to the original's whole.
    pub fn finish(
        &mut self,
        stripes: impl Iterator<Item = usize>,
        kinds: &mut Kinds,
    ) -> Result<(), String> {
        self.each(stripes, u32::MAX, kinds)?;
        let whole = self.theirs.whole();
        kinds.finished(&self.theirs.settings, &self.call.record, &whole);
        let frame = &self.call.frame;
        frame
            .same(&frame.bytes[..whole.len()], &whole)
            .map_err(|found| format!("finished, {found}\n    {}", self.call))
    }

    /// Makes a call beside the job, on its picture, with another record or other stripes, and answers the
    /// number of the refusal that is due, if any. The job goes on as if it had not been made.
    pub fn aside(&mut self, record: Record, ask: Ask, room: usize) -> Result<Option<u32>, String> {
        let own = mem::replace(&mut self.call.record, record);
        self.call.ask = ask;
        self.call.frame.room = room;
        let due = due::of_cue(&self.theirs, &self.call);
        let held = self.call.hold(&due);
        self.call.record = own;
        held.map(|()| due.err().map(|refusal| refusal.number))
    }

    /// Changes the entries of the record that are not used.
    pub fn change_unused(&mut self, change: impl FnOnce(&mut [u32])) {
        let record = &mut self.call.record;
        change(unused(record.count, &mut record.ends));
    }

    /// Only a short workspace or a stripe that is missing stops a Work of a job.
    fn due(&mut self, stripe: u32, budget: u32) -> Outcome {
        let mut record = self.call.record;
        if self.call.frame.room < ROOM {
            return plain(11);
        }
        if stripe >= record.count {
            return plain(12);
        }
        let sum = &mut self.budgets[stripe as usize];
        *sum += u64::from(budget);
        let counter = &mut record.counters[stripe as usize];
        let before = *counter;
        *counter = (*sum).min(self.theirs.total as u64) as u32;
        let mut bytes = self.call.frame.bytes.clone();
        let (settings, strokes) = (self.theirs.settings, *counter);
        let drawn = self.theirs.after(strokes as usize);
        due::take_rows(&settings, &record, stripe, drawn, &mut bytes);
        Ok(Done {
            answer: (strokes - before) as usize,
            record,
            bytes,
        })
    }
}

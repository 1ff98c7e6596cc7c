//! The calls Open and Work.

use crate::refusal::{self, Cause, Result};
use crate::{Record, Settings, Stripes, Workspace, raw, stripes};
use std::ops::Range;

/// A cue that is drawn in stripes, a budget of strokes at a time.
///
/// It keeps the tape, the settings and the picture for as long as it lasts, so that each row holds
/// what the first strokes of the cue leave on zeros, as many as were done on its stripe. Once they
/// are all done on every stripe, the picture is what [`draw`](crate::draw) leaves.
///
/// A job may be stopped between two calls and go on elsewhere: whoever stores its record and its
/// picture resumes it with the same tape and settings.
///
/// ```
/// use captions::{Job, Record, Settings, Stripes, Workspace, draw};
///
/// let (settings, tape) = (Settings::new(64, 48), b"\x02H\x02i");
/// let workspace = &mut Workspace::new();
/// let mut picture = settings.new_picture();
/// let stripes = Stripes::new(48, &[16, 24, 48])?;
/// let mut job = Job::open(&settings, tape, workspace, &mut picture, &stripes)?;
/// job.work(workspace, 1, 5)?;
/// let stored = (job.record().to_bytes(), job.picture().to_vec());
///
/// let (record, mut picture) = (Record::from_bytes(&stored.0), stored.1);
/// let mut job = Job::resume(&settings, tape, workspace, &mut picture, &record)?;
/// assert_eq!(job.done(1), 5);
/// for stripe in 0..job.stripes() {
///     job.work(workspace, stripe, u32::MAX)?;
/// }
/// let mut whole = settings.new_picture();
/// draw(&settings, tape, workspace, &mut whole)?;
/// assert!(picture == whole);
/// # Ok::<(), captions::Refusal>(())
/// ```
#[derive(Debug)]
pub struct Job<'a> {
    settings: Settings,
    tape: &'a [u8],
    picture: &'a mut [u8],
    record: Record,
    total: u32,
}

impl<'a> Job<'a> {
    /// Clears the picture, which is drawn in these stripes. They are refused where they are those of
    /// a picture of another height.
    pub fn open(
        settings: &Settings,
        tape: &'a [u8],
        workspace: &mut Workspace,
        picture: &'a mut [u8],
        stripes: &Stripes,
    ) -> Result<Job<'a>> {
        let mut record = Record::ZEROS;
        let buffers = raw::Buffers {
            tape,
            workspace: workspace.bytes(),
            picture,
        };
        let answer = raw::open(&settings.raw(), buffers, stripes.raw(), &mut record);
        let total = refusal::answer(answer)?;
        Ok(Job {
            settings: *settings,
            tape,
            picture,
            record,
            total,
        })
    }

    /// Goes on with a job from its stored record and picture, exactly as if it had never stopped.
    /// Nothing of the picture changes before the next Work.
    ///
    /// Refused is what Work refuses on any stripe: settings, tape or lengths that no call takes,
    /// stripes that do not fit the picture, and counters that no job with this tape and these
    /// settings can have. The rest cannot be checked: that tape and settings are those of
    /// Open, and that the picture is the one that the record was stored with. Where they are not,
    /// no call fails, but what comes out is not what Draw leaves.
    ///
    /// How many strokes there are in all is not in the record: it is asked of an Open on a picture
    /// without rows, which reads the tape once more.
    ///
    /// A picture without rows has no stripes: its record has a count of 0, and counters of 0.
    pub fn resume(
        settings: &Settings,
        tape: &'a [u8],
        workspace: &mut Workspace,
        picture: &'a mut [u8],
        record: &Record,
    ) -> Result<Job<'a>> {
        let mut job = Job {
            settings: *settings,
            tape,
            picture,
            record: *record,
            total: 0,
        };
        // A Work without a budget checks all, and changes nothing. That there is no stripe 0 is its
        // last check, and the picture then has no rows.
        if let Err(refusal) = job.work(workspace, 0, 0)
            && refusal.cause != Cause::NoSuchStripe
        {
            return Err(refusal);
        }
        job.total = strokes(settings, tape, workspace)?;
        Ok(job)
    }

    /// Does the next strokes on the rows of a stripe, as many as the budget or as are left, and
    /// answers how many they were.
    pub fn work(&mut self, workspace: &mut Workspace, stripe: u32, budget: u32) -> Result<u32> {
        let buffers = raw::Buffers {
            tape: self.tape,
            workspace: workspace.bytes(),
            picture: self.picture,
        };
        let settings = self.settings.raw();
        let answer = raw::work(&settings, buffers, &mut self.record, stripe, budget);
        refusal::answer(answer)
    }

    /// How far the job is: what is stored, with the picture, to resume it.
    pub fn record(&self) -> Record {
        self.record
    }

    /// How many strokes the cue has, as [`draw`](crate::draw) counts them.
    pub fn total(&self) -> u32 {
        self.total
    }

    /// How many stripes the picture has.
    pub fn stripes(&self) -> u32 {
        self.record.count
    }

    /// The rows of a stripe; none where the picture does not have it.
    pub fn rows(&self, stripe: u32) -> Option<Range<u32>> {
        stripes::rows(self.record.used_ends(), stripe)
    }

    /// How many strokes were done on a stripe; none on one that the picture does not have.
    pub fn done(&self, stripe: u32) -> u32 {
        let counters = &self.record.counters;
        counters.get(stripe as usize).copied().unwrap_or(0)
    }

    /// The picture's buffer as it is now.
    pub fn picture(&self) -> &[u8] {
        self.picture
    }
}

/// How many strokes a cue has. They do not depend on the picture's height, so an Open counts them
/// on a picture without rows.
fn strokes(settings: &Settings, tape: &[u8], workspace: &mut Workspace) -> Result<u32> {
    let flat = Settings {
        height: 0,
        ..*settings
    };
    let none = Stripes::new(0, &[])?;
    Job::open(&flat, tape, workspace, &mut [], &none).map(|job| job.total)
}

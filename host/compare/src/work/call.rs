//! One call of the proved Open or Work between fences, held to what is due of it.

use crate::draw::frame::Frame;
pub use crate::proved::Ask;
use crate::proved::{self, Buffers};
use crate::refusal::Refusal;
use crate::work::record::{Record, ZEROS};
use std::fmt::{self, Display, Formatter};

/// What stands on each side of a record.
const POSTS: [u32; 16] = [0x5eed_fe4c; 16];

/// A call: what it asks for, and what it is told and lent.
pub struct Call {
    pub frame: Frame,
    /// What the record holds before the call.
    pub record: Record,
    pub ask: Ask,
}

/// What a call that is not refused comes to: its answer, and what the record and the picture's
/// buffer then hold.
pub struct Done {
    pub answer: usize,
    pub record: Record,
    pub bytes: Vec<u8>,
}

pub type Outcome = Result<Done, Refusal>;

#[repr(C)]
struct Fence {
    before: [u32; 16],
    record: Record,
    behind: [u32; 16],
}

impl Call {
    /// Makes the call and holds its answer, and what it did to what it was lent, to what is due.
    pub fn hold(&self, due: &Outcome) -> Result<(), String> {
        self.make(due)
            .map_err(|found| format!("{found}\n    {self}"))
    }

    /// Makes the call so; the next gets what it left, which is what was due.
    pub fn step(&mut self, due: Outcome) -> Result<(), String> {
        self.hold(&due)?;
        if let Ok(done) = due {
            self.record = done.record;
            self.frame.bytes = done.bytes;
        }
        Ok(())
    }

    fn make(&self, due: &Outcome) -> Result<(), String> {
        let mut fence = Fence {
            before: POSTS,
            record: self.record,
            behind: POSTS,
        };
        let left = self
            .frame
            .lend(|buffers| self.ask(buffers, &mut fence.record))?;
        if [fence.before, fence.behind] != [POSTS; 2] {
            return Err(format!("{:?} wrote beside the record", left.answer));
        }
        match (left.answer, due) {
            (Ok(answer), Ok(due)) if answer == due.answer => {
                same(&fence.record, &due.record)?;
                self.frame.same(left.picture.inside(), &due.bytes)
            }
            (Err(refusal), Err(due)) if refusal == *due => {
                same(&fence.record, &self.refused())?;
                left.kept_by(refusal)
            }
            (answer, due) => {
                let due = due.as_ref().map(|due| due.answer);
                Err(format!("{answer:?} where {due:?} is due"))
            }
        }
    }

    fn ask(&self, buffers: Buffers, record: &mut Record) -> Result<usize, Refusal> {
        proved::ask(&self.frame.settings, buffers, record, self.ask)
    }

    /// The record after a refusal.
    fn refused(&self) -> Record {
        match self.ask {
            Ask::Open { .. } => ZEROS,
            Ask::Work { .. } => self.record,
        }
    }
}

fn same(found: &Record, due: &Record) -> Result<(), String> {
    if found == due {
        return Ok(());
    }
    Err(format!("{found:?}\n    where {due:?} is due"))
}

impl Display for Call {
    fn fmt(&self, to: &mut Formatter) -> fmt::Result {
        let Call { frame, record, ask } = self;
        write!(to, "{ask:?}, {record:?}\n    {frame}")
    }
}

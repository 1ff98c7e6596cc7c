//! A frame: what a call that draws is told and lent, between fences; and Draw's, held to what is due
//! of it.

use crate::draw::settings::{SIDE_MAX, Settings};
use crate::fenced::Fenced;
use crate::font::picture::fence;
use crate::hex::hex;
use crate::proved::{self, Buffers};
use crate::random::Random;
use crate::refusal::Refusal;
use std::fmt::{self, Display, Formatter};

/// The bytes of a fence beside a tape.
const BESIDE: usize = 64;

/// A call: its settings, and what it is lent.
pub struct Frame {
    pub settings: Settings,
    pub tape: Vec<u8>,
    /// The bytes of the workspace.
    pub room: usize,
    /// What the picture's buffer holds before the call.
    pub bytes: Vec<u8>,
}

/// What a call that is not refused comes to: its answer, and what the picture's buffer then holds.
pub struct Drawn {
    pub strokes: usize,
    pub bytes: Vec<u8>,
}

pub type Outcome = Result<Drawn, Refusal>;

/// A call's answer, and what it left of the bytes lent to it.
pub struct Left {
    pub answer: Result<usize, Refusal>,
    pub picture: Fenced,
    workspace: Fenced,
}

impl Frame {
    /// Calls Draw and holds its answer, and what it did to the bytes lent, to what is due.
    pub fn hold(&self, due: &Outcome) -> Result<(), String> {
        self.call(due)
            .map_err(|found| format!("{found}\n    {self}"))
    }

    fn call(&self, due: &Outcome) -> Result<(), String> {
        let left = self.lend(|buffers| proved::draw(&self.settings, buffers))?;
        match (left.answer, due) {
            (Ok(strokes), Ok(due)) if strokes == due.strokes => {
                self.same(left.picture.inside(), &due.bytes)
            }
            (Err(refusal), Err(due)) if refusal == *due => left.kept_by(refusal),
            (answer, due) => {
                let due = due.as_ref().map(|due| due.strokes);
                Err(format!("{answer:?} where {due:?} is due"))
            }
        }
    }

    /// Makes a call that is lent tape, workspace and picture, each between fences.
    pub fn lend(
        &self,
        call: impl FnOnce(Buffers) -> Result<usize, Refusal>,
    ) -> Result<Left, String> {
        let own = self.settings.area().min(self.bytes.len());
        let mut picture = Fenced::new(&self.bytes, fence(self.settings.width.min(SIDE_MAX)));
        // Calls on one picture that have other rooms find other bytes there.
        let mut random = Random::new(self.room as u64, own as u64);
        let mut workspace = Fenced::workspace(&mut random, self.room);
        let mut tape = Fenced::new(&self.tape, BESIDE);
        let made = picture.lend(0..own, self.bytes.len() - own, |picture| {
            workspace.lend(0..self.room, 0, |workspace| {
                tape.lend(0..0, self.tape.len(), |tape| {
                    call(Buffers {
                        tape,
                        workspace,
                        picture,
                    })
                })
            })
        });
        let outside = [
            ("outside the picture", made.kept),
            ("outside the workspace", made.answer.kept),
            ("on the tape or beside it", made.answer.answer.kept),
        ];
        let answer = made.answer.answer.answer;
        match outside.iter().find(|(_, kept)| !kept) {
            Some((what, _)) => Err(format!("{answer:?} wrote {what}")),
            None => Ok(Left {
                answer,
                picture,
                workspace,
            }),
        }
    }

    /// Holds what the picture's buffer holds to what is due of it.
    pub fn same(&self, found: &[u8], due: &[u8]) -> Result<(), String> {
        if found == due {
            return Ok(());
        }
        let at = (0..due.len())
            .find(|&at| found[at] != due[at])
            .unwrap_or_default();
        let (pixel, width) = (at / 4, self.settings.width.max(1) as usize);
        Err(format!(
            "row {} column {} byte {}: {} where the original has {}",
            pixel / width,
            pixel % width,
            at % 4,
            found[at],
            due[at]
        ))
    }
}

impl Left {
    /// A refusal leaves the picture, and 8 to 11 and 13 leave the workspace too.
    pub fn kept_by(&self, refusal: Refusal) -> Result<(), String> {
        if !self.picture.unchanged() {
            Err(format!("{refusal:?} but wrote to the picture"))
        } else if matches!(refusal.number, 8..=11 | 13) && !self.workspace.unchanged() {
            Err(format!("{refusal:?} but wrote to the workspace"))
        } else {
            Ok(())
        }
    }
}

impl Display for Frame {
    fn fmt(&self, to: &mut Formatter) -> fmt::Result {
        let (room, bytes) = (self.room, self.bytes.len());
        write!(to, "{:?}\n    workspace of {room} bytes", self.settings)?;
        write!(to, ", picture of {bytes}, tape {}", hex(&self.tape))
    }
}

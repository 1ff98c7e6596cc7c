//! One call of the proved Wrap in a fenced workspace, held to what is due of it.

use crate::fenced::{Fenced, Lent};
use crate::hex::hex;
use crate::refusal::Refusal;
use crate::tape::{WHITE, flatten};
use crate::wrap::cues::Cue;
use crate::wrap::lines::{self, Line, Outcome};
use crate::wrap::{proved, reading};
use oxideav_core::Segment;
use reference::{Original, replaced};

/// Holds a cue's lines, at a limit within the range, to the original's and to the reading's, and
/// answers them. No such cue is refused. Where glyph mode 1 replaces letters of it, the original's
/// lines of the replaced ones are the same.
pub fn cue(
    original: &Original,
    cue: &Cue,
    limit: u32,
    workspace: &mut Fenced,
) -> Result<Vec<Line>, String> {
    let due = reading::read(&cue.tape, workspace.inside().len(), limit);
    held(&cue.tape, limit, workspace, |found| {
        if let Ok(lines) = &found {
            beside(original, lines, &cue.segments, limit)?;
            if replaced::count(&cue.segments) > 0 {
                beside(original, lines, &replaced::all(&cue.segments), limit)?;
            }
        }
        lines::same(&found, &due)?;
        found.map_err(|refusal| format!("{refusal:?} of a cue"))
    })
}

/// Holds lines to those that the original makes of segments.
fn beside(
    original: &Original,
    lines: &[Line],
    segments: &[Segment],
    limit: u32,
) -> Result<(), String> {
    let letters = flatten(original, segments, WHITE);
    let theirs = original.wrap(segments, WHITE, limit as usize);
    lines::beside(lines, &letters, &theirs).map_err(|found| format!("beside the original: {found}"))
}

/// Holds a call of any kind to the reading alone, which may refuse it.
pub fn tape(tape: &[u8], limit: u32, workspace: &mut Fenced) -> Result<(), String> {
    let due = reading::read(tape, workspace.inside().len(), limit);
    outcome(tape, limit, workspace, &due)
}

/// Holds a call to the outcome given.
pub fn outcome(
    tape: &[u8],
    limit: u32,
    workspace: &mut Fenced,
    due: &Outcome,
) -> Result<(), String> {
    held(tape, limit, workspace, |found| lines::same(&found, due))
}

fn held<T>(
    tape: &[u8],
    limit: u32,
    workspace: &mut Fenced,
    hold: impl FnOnce(Outcome) -> Result<T, String>,
) -> Result<T, String> {
    call(tape, limit, workspace)
        .and_then(hold)
        .map_err(|found| format!("{found}\n    limit {limit}, tape {}", hex(tape)))
}

/// Calls Wrap, which may change all of the workspace, but nothing of it where it refuses 8, 10 or 11.
fn call(tape: &[u8], limit: u32, workspace: &mut Fenced) -> Result<Outcome, String> {
    let room = workspace.inside().len();
    let Lent { answer, kept } =
        workspace.lend(0..room, 0, |workspace| proved::wrap(tape, workspace, limit));
    if !kept {
        return Err(format!("{answer:?} wrote outside its {room} bytes"));
    }
    match answer {
        Ok(count) => lines::read(workspace.inside(), count)
            .map(Ok)
            .ok_or_else(|| format!("the workspace does not hold its {count} lines")),
        Err(Refusal {
            number: 8 | 10 | 11,
            ..
        }) if !workspace.unchanged() => Err(format!("{answer:?} but wrote")),
        Err(refusal) => Ok(Err(refusal)),
    }
}

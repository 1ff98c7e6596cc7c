//! What is due of a call of any kind, by a reading of documents 01 and 02 written for the comparison
//! alone.

use crate::draw::due;
use crate::draw::settings::Settings;
use crate::refusal::{Refusal, plain};
use crate::tape::letters::segments;
use crate::tape::reading;
use crate::work::call::{Ask, Call, Done, Outcome};
use crate::work::record::{self, Ends, Stripes};
use crate::work::theirs::Theirs;
use reference::Original;

/// What is due of a call. Where it is not refused, the original draws the letters that are read from
/// its tape.
pub fn of_call(original: &Original, call: &Call) -> Outcome {
    let frame = &call.frame;
    before_tape(call)?;
    let color = frame.settings.default_color;
    let letters = reading::read(&frame.tape, color)?;
    let theirs = Theirs::new(original, frame.settings, segments(&letters, color));
    of_cue(&theirs, call)
}

/// What is due of a call whose tape is a known cue's.
pub fn of_cue(theirs: &Theirs, call: &Call) -> Outcome {
    before_tape(call)?;
    match call.ask {
        Ask::Open { stripes } => Ok(opened(theirs, call, &stripes)),
        Ask::Work { stripe, budget } => worked(theirs, call, stripe, budget),
    }
}

/// What stops a call before its tape is read, if anything; of the stripes, an Open's own or those of a
/// Work's record, that they break the rule.
fn before_tape(call: &Call) -> Result<(), Refusal> {
    due::settings_and_lengths(&call.frame)?;
    let height = call.frame.settings.height;
    let keep_rule = match call.ask {
        Ask::Open { stripes } => stripes.keep_rule(height),
        Ask::Work { .. } => call.record.keep_rule(height),
    };
    if keep_rule { Ok(()) } else { plain(13) }
}

/// The picture is cleared, and what stands behind it stays.
fn opened(theirs: &Theirs, call: &Call, stripes: &Stripes) -> Done {
    let mut bytes = call.frame.bytes.clone();
    bytes[..theirs.settings.area()].fill(0);
    Done {
        answer: theirs.total,
        record: record::opened(stripes),
        bytes,
    }
}

/// The next strokes are drawn over what the picture holds, and of that the stripe's rows are taken.
fn worked(theirs: &Theirs, call: &Call, stripe: u32, budget: u32) -> Outcome {
    let mut record = call.record;
    if !record::is_sound(&record, theirs.total) {
        return plain(14);
    }
    if stripe >= record.count {
        return plain(12);
    }
    let counter = &mut record.counters[stripe as usize];
    let from = *counter as usize;
    let answer = (budget as usize).min(theirs.total - from);
    *counter += answer as u32;
    let mut bytes = call.frame.bytes.clone();
    let mut drawn = bytes.clone();
    theirs.draw(&mut drawn, from..from + answer);
    take_rows(&theirs.settings, &record, stripe, &drawn, &mut bytes);
    Ok(Done {
        answer,
        record,
        bytes,
    })
}

/// Takes the rows of a stripe, each for itself, from a picture to another.
pub fn take_rows(settings: &Settings, ends: &impl Ends, stripe: u32, from: &[u8], to: &mut [u8]) {
    let own = |row: &u32| ends.stripe_of(*row) == Some(stripe as usize);
    for row in (0..settings.height).filter(own) {
        let first = row as usize;
        let part = settings.bytes(&(first..first + 1));
        to[part.clone()].copy_from_slice(&from[part]);
    }
}

//! The call Wrap.

use crate::refusal::{self, Result};
use crate::{Workspace, raw};

/// The largest column limit; the smallest is 1.
pub const COLUMNS_MAX: u32 = 4_096;

/// A line of a cue.
#[derive(Clone, Debug, PartialEq, Eq)]
pub struct Line {
    /// The numbers of its letters, counted from 0 as the cue has them, breaks and the two letters
    /// that a voice adds too.
    pub letters: Vec<u16>,
    /// How many columns they take.
    pub columns: u16,
}

/// Breaks a tape's letters into lines of at most so many columns, from 1 to [`COLUMNS_MAX`].
///
/// Letters of unlike style, of which their color is part, are never one word. This takes no default
/// color and reckons with opaque white: wherever the settings have another, the lines that
/// [`draw`](crate::draw) makes may be unlike these.
pub fn wrap(tape: &[u8], workspace: &mut Workspace, column_limit: u32) -> Result<Vec<Line>> {
    let lines = refusal::answer(raw::wrap(tape, workspace.bytes(), column_limit))? as usize;
    let (pairs, _) = workspace.bytes().as_chunks::<2>();
    let mut words = pairs.iter().map(|pair| u16::from_be_bytes(*pair));
    // Each line's letters and columns stand first, and then the letters' numbers, line after line.
    let table: Vec<u16> = words.by_ref().take(2 * lines).collect();
    let (table, _) = table.as_chunks::<2>();
    Ok(table
        .iter()
        .map(|&[letters, columns]| Line {
            letters: words.by_ref().take(letters.into()).collect(),
            columns,
        })
        .collect())
}

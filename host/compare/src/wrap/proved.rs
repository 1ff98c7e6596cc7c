//! The proved Wrap.

use crate::refusal::{self, Refusal};

/// Wraps a tape's letters and answers how many lines the workspace then begins with.
pub fn wrap(tape: &[u8], workspace: &mut [u8], limit: u32) -> Result<usize, Refusal> {
    refusal::halves(captions::raw::wrap(tape, workspace, limit))
}

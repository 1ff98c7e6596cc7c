//! The room that a call works in.

use std::fmt::{self, Debug, Formatter};

/// The bytes of a workspace.
pub const WORKSPACE_BYTES: usize = 65_536;

/// The bytes that a call works in. One serves any number of calls: nothing depends on what it held.
#[derive(Clone)]
pub struct Workspace(Vec<u8>);

impl Workspace {
    pub fn new() -> Workspace {
        Workspace(vec![0; WORKSPACE_BYTES])
    }

    pub(crate) fn bytes(&mut self) -> &mut [u8] {
        &mut self.0
    }
}

// Its bytes mean nothing between calls.
impl Debug for Workspace {
    fn fmt(&self, to: &mut Formatter) -> fmt::Result {
        to.debug_struct("Workspace").finish_non_exhaustive()
    }
}

impl Default for Workspace {
    fn default() -> Workspace {
        Workspace::new()
    }
}

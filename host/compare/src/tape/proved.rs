//! The proved reader: the function of `libtape_c.a`.
#![allow(unsafe_code)]

use crate::refusal::{self, Refusal};

unsafe extern "C" {
    fn tape_letters(
        tape: *const u8,
        tape_len: usize,
        workspace: *mut u8,
        workspace_len: usize,
        color: *const u8,
    ) -> u64;
}

/// Reads a tape into a workspace and answers how many letters it then begins with; `color` is that
/// of the tape's outer list.
pub fn read(tape: &[u8], workspace: &mut [u8], color: [u8; 4]) -> Result<usize, Refusal> {
    // Safety: each pointer and length are those of one slice, lent for the call alone, and `color`
    // has the four bytes that are read. Every tape and every length is allowed.
    let answer = unsafe {
        tape_letters(
            tape.as_ptr(),
            tape.len(),
            workspace.as_mut_ptr(),
            workspace.len(),
            color.as_ptr(),
        )
    };
    refusal::halves(answer)
}

//! What comes from standard input.

use crate::output::Failure;
use captions::TAPE_MAX;
use std::fs::File;
use std::io::{self, Read};
use std::os::fd::AsFd;

/// Standard input, past `io::stdin`, which takes an input that is not open for reading as an empty
/// one. One that was closed is empty: Rust then opens /dev/null in its place.
pub fn open() -> Result<File, Failure> {
    let opened = io::stdin().as_fd().try_clone_to_owned();
    opened.map(File::from).map_err(Failure::Input)
}

/// A tape: all bytes, but at most one more than a tape may have, so that a longer one is seen to be
/// too long.
pub fn tape() -> Result<Vec<u8>, Failure> {
    let mut tape = Vec::new();
    let enough = TAPE_MAX as u64 + 1;
    let read = open()?.take(enough).read_to_end(&mut tape);
    read.map(|_| tape).map_err(Failure::Input)
}

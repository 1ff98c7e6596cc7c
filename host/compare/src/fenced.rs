//! Bytes that stand between two fences, so that a write outside the part lent is seen.

use crate::random::Random;
use std::ops::Range;

/// The bytes of a fence beside a workspace.
const BESIDE: usize = 4096;

pub struct Fenced {
    bytes: Vec<u8>,
    /// The bytes as they were before the last call.
    before: Vec<u8>,
    inside: Range<usize>,
}

/// What a call did with the bytes lent to it.
pub struct Lent<T> {
    pub answer: T,
    /// Whether every byte but its own is as before.
    pub kept: bool,
}

impl Fenced {
    pub fn new(inside: &[u8], fence: usize) -> Fenced {
        // Random bytes: a stray pixel of any colour changes some of them.
        let mut posts = vec![0; 2 * fence];
        Random::new(0, fence as u64).fill(&mut posts);
        let bytes = [&posts[..fence], inside, &posts[fence..]].concat();
        Fenced {
            before: bytes.clone(),
            bytes,
            inside: fence..fence + inside.len(),
        }
    }

    /// A workspace of this many random bytes.
    pub fn workspace(random: &mut Random, room: usize) -> Fenced {
        let mut workspace = vec![0; room];
        random.fill(&mut workspace);
        Fenced::new(&workspace, BESIDE)
    }

    /// Lends a call the bytes of `own`, which it may change, and `further` bytes after them, which
    /// it may not. The further bytes may reach into the fence.
    pub fn lend<T>(
        &mut self,
        own: Range<usize>,
        further: usize,
        call: impl FnOnce(&mut [u8]) -> T,
    ) -> Lent<T> {
        self.before.copy_from_slice(&self.bytes);
        let from = self.inside.start + own.start;
        let to = self.inside.start + own.end;
        let answer = call(&mut self.bytes[from..to + further]);
        let kept =
            self.bytes[..from] == self.before[..from] && self.bytes[to..] == self.before[to..];
        Lent { answer, kept }
    }

    /// Whether the last call left every byte as it was, its own too.
    pub fn unchanged(&self) -> bool {
        self.bytes == self.before
    }

    pub fn inside(&self) -> &[u8] {
        &self.bytes[self.inside.clone()]
    }
}

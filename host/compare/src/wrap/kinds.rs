//! What the random cues met: how often each limit, and each thing that wrapping treats in a way of
//! its own.

use crate::tape::letters::Letter;
use crate::wrap::lines::Line;
use crate::wrap::reading::{columns, is_control, is_space, tokens};
use std::collections::BTreeMap;

/// A cue at a limit.
struct Met<'a> {
    letters: &'a [Letter],
    tokens: Vec<&'a [usize]>,
    lines: &'a [Line],
    limit: usize,
}

type Kind = (&'static str, fn(&Met) -> bool);

const KINDS: [Kind; 16] = [
    ("tab beside space", |met| {
        met.beside(|one, next| [one.code, next.code] == [0x20, 0x09])
    }),
    ("breaks in a row", |met| {
        met.beside(|one, next| is_break(one) && is_break(next))
    }),
    ("break first", |met| {
        met.letters.first().is_some_and(is_break)
    }),
    ("break last", |met| met.letters.last().is_some_and(is_break)),
    ("no-break space", |met| met.letter(0xa0)),
    ("control 85", |met| met.letter(0x85)),
    ("token of controls alone", |met| {
        met.tokens.iter().any(|token| met.columns(token) == 0)
    }),
    ("word to cut", |met| met.words_to_cut().next().is_some()),
    ("word to cut that starts with a control", |met| {
        met.words_to_cut()
            .any(|token| is_control(&met.letters[token[0]]))
    }),
    ("style change in a word", |met| {
        met.beside(|one, next| in_word(one, next) && one.style != next.style)
    }),
    ("empty run in a word", |met| {
        met.beside(|one, next| in_word(one, next) && one.style == next.style)
    }),
    ("style change in spaces", |met| {
        met.beside(|one, next| next.start && is_space(one) && is_space(next))
    }),
    ("blank line", |met| {
        met.lines.iter().any(|line| line.letters.is_empty())
    }),
    ("more letters than the limit", |met| {
        met.lines.iter().any(|line| line.letters.len() > met.limit)
    }),
    ("tab at a line's end", |met| {
        met.lines
            .iter()
            .filter_map(|line| line.letters.last())
            .any(|&last| met.letters[last].code == 0x09)
    }),
    ("control at a line's start", |met| {
        met.lines
            .iter()
            .filter_map(|line| line.letters.first())
            .any(|&first| met.letters[first].code < 0x09)
    }),
];

impl Met<'_> {
    fn letter(&self, code: u32) -> bool {
        self.letters.iter().any(|letter| letter.code == code)
    }

    fn beside(&self, kind: impl Fn(&Letter, &Letter) -> bool) -> bool {
        self.letters.windows(2).any(|pair| kind(&pair[0], &pair[1]))
    }

    fn columns(&self, token: &[usize]) -> usize {
        columns(self.letters, token)
    }

    fn words_to_cut(&self) -> impl Iterator<Item = &[usize]> {
        self.tokens
            .iter()
            .copied()
            .filter(|token| !is_space(&self.letters[token[0]]) && self.columns(token) > self.limit)
    }
}

fn is_break(letter: &Letter) -> bool {
    letter.code == 0x0a
}

/// Whether a run starts between two letters that would be one word.
fn in_word(one: &Letter, next: &Letter) -> bool {
    let word = |letter| !is_space(letter) && !is_break(letter);
    next.start && word(one) && word(next)
}

pub struct Kinds {
    met: [u64; KINDS.len()],
    /// By limit.
    limits: Vec<u64>,
}

impl Kinds {
    pub fn new() -> Kinds {
        Kinds {
            met: [0; KINDS.len()],
            limits: vec![0; 4097],
        }
    }

    /// Counts a cue at a limit within the range.
    pub fn add(&mut self, letters: &[Letter], lines: &[Line], limit: u32) {
        let limit = limit as usize;
        self.limits[limit] += 1;
        let numbers: Vec<usize> = (0..letters.len()).collect();
        let met = Met {
            letters,
            tokens: numbers
                .split(|&number| is_break(&letters[number]))
                .flat_map(|logical| tokens(letters, logical))
                .collect(),
            lines,
            limit,
        };
        for (count, (_, kind)) in self.met.iter_mut().zip(KINDS) {
            *count += u64::from(kind(&met));
        }
    }

    pub fn show(&self) {
        let total: u64 = self.limits.iter().sum();
        let least = |limits: &[u64]| limits.iter().copied().min().unwrap_or_default();
        let small = least(&self.limits[1..=40]);
        let large = least(&self.limits[4090..]);
        let met: BTreeMap<_, _> = KINDS.iter().map(|(name, _)| name).zip(self.met).collect();
        println!("random cues: {total} wraps that agree, among them {met:?}");
        println!("random cues: each limit to 40 at least {small} times, each from 4090 {large}");
    }
}

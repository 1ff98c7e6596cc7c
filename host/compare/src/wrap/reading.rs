//! A reading of document 01's section on lines, written for the comparison alone. It works on the
//! numbers of the letters, which the original does not know.

use crate::refusal::Refusal;
use crate::tape::letters::Letter;
use crate::tape::{ROOM, WHITE, reading};
use crate::wrap::lines::{Line, Outcome};

const TAB: u32 = 0x09;
const BREAK: u32 = 0x0a;
const SPACE: u32 = 0x20;
/// The most columns that a call may ask for.
const MOST_COLUMNS: u32 = 4096;

/// What a call comes to: a limit out of range, a tape too long and a short workspace go before what
/// is wrong on the tape.
pub fn read(tape: &[u8], room: usize, limit: u32) -> Outcome {
    let refused = |number| Err(Refusal { number, place: 0 });
    if limit == 0 || limit > MOST_COLUMNS {
        return refused(8);
    }
    match reading::read(tape, WHITE) {
        Err(Refusal { number: 10, .. }) => refused(10),
        _ if room < ROOM => refused(11),
        read => Ok(lines(&read?, limit as usize)),
    }
}

/// The lines of letters.
fn lines(letters: &[Letter], limit: usize) -> Vec<Line> {
    let numbers: Vec<usize> = (0..letters.len()).collect();
    let mut filling = Filling {
        letters,
        limit,
        line: Vec::new(),
        closed: Vec::new(),
    };
    for logical in numbers.split(|&number| letters[number].code == BREAK) {
        for token in tokens(letters, logical) {
            filling.token(token);
        }
        filling.close();
    }
    let mut lines = filling.closed;
    for line in &mut lines {
        while line.pop_if(|last| letters[*last].code == SPACE).is_some() {}
    }
    while lines.pop_if(|last| last.is_empty()).is_some() {}
    lines
        .into_iter()
        .map(|numbers| Line {
            columns: columns(letters, &numbers),
            letters: numbers,
        })
        .collect()
}

/// The tokens of a logical line: no run and no change between space and other letters lies in one.
pub fn tokens<'a>(
    letters: &'a [Letter],
    logical: &'a [usize],
) -> impl Iterator<Item = &'a [usize]> {
    logical.chunk_by(|&before, &number| {
        !letters[number].start && is_space(&letters[before]) == is_space(&letters[number])
    })
}

pub fn is_space(letter: &Letter) -> bool {
    matches!(letter.code, SPACE | TAB)
}

pub fn is_control(letter: &Letter) -> bool {
    matches!(letter.code, 0x00..=0x1f | 0x7f..=0x9f)
}

pub fn columns(letters: &[Letter], numbers: &[usize]) -> usize {
    let wide = |letter: &Letter| letter.code == TAB || !is_control(letter);
    numbers
        .iter()
        .filter(|&&number| wide(&letters[number]))
        .count()
}

struct Filling<'a> {
    letters: &'a [Letter],
    limit: usize,
    /// The line being filled, and those before it.
    line: Vec<usize>,
    closed: Vec<Vec<usize>>,
}

impl Filling<'_> {
    fn token(&mut self, token: &[usize]) {
        let space = is_space(&self.letters[token[0]]);
        let wide = columns(self.letters, token);
        let filled = self.filled();
        if wide == 0 || space && filled == 0 {
            return;
        }
        if filled > 0 && filled + wide > self.limit {
            self.close();
            if space {
                return;
            }
        }
        if wide <= self.limit {
            self.line.extend(token);
            return;
        }
        for chunk in token.chunks(self.limit) {
            if self.filled() > 0 {
                self.close();
            }
            self.line.extend(chunk);
            if self.filled() >= self.limit {
                self.close();
            }
        }
    }

    /// The columns of the line being filled.
    fn filled(&self) -> usize {
        columns(self.letters, &self.line)
    }

    fn close(&mut self) {
        self.closed.push(std::mem::take(&mut self.line));
    }
}

//! Lines as numbers of letters: read from a workspace, and held to what is due.

use crate::refusal::Refusal;
use crate::tape::letters::{self, Letter};
use std::fmt::{self, Debug, Display, Formatter};

#[derive(Clone, Debug, PartialEq)]
pub struct Line {
    /// Their numbers, counted from 0 as runs are made.
    pub letters: Vec<usize>,
    pub columns: usize,
}

pub type Outcome = Result<Vec<Line>, Refusal>;

/// The lines that a workspace begins with, or `None` where it does not hold so many.
pub fn read(workspace: &[u8], count: usize) -> Option<Vec<Line>> {
    let (heads, rest) = workspace.split_at_checked(count.checked_mul(4)?)?;
    let mut numbers = pairs(rest);
    let mut heads = pairs(heads);
    let mut lines = Vec::new();
    while let (Some(letters), Some(columns)) = (heads.next(), heads.next()) {
        let line: Vec<usize> = numbers.by_ref().take(letters).collect();
        if line.len() < letters {
            return None;
        }
        lines.push(Line {
            letters: line,
            columns,
        });
    }
    Some(lines)
}

fn pairs(bytes: &[u8]) -> impl Iterator<Item = usize> {
    let (pairs, _) = bytes.as_chunks::<2>();
    pairs.iter().map(|pair| u16::from_be_bytes(*pair).into())
}

impl Display for Line {
    /// The numbers as ranges, the first few of them.
    fn fmt(&self, to: &mut Formatter) -> fmt::Result {
        for range in self.letters.chunk_by(|one, next| one + 1 == *next).take(8) {
            write!(to, "{}..={} ", range[0], range[range.len() - 1])?;
        }
        let (letters, columns) = (self.letters.len(), self.columns);
        write!(to, "({letters} letters, {columns} columns)")
    }
}

/// Holds an outcome to the one that is due, number by number.
pub fn same(found: &Outcome, due: &Outcome) -> Result<(), String> {
    let (Ok(lines), Ok(due_lines)) = (found, due) else {
        let count = |outcome: &Outcome| outcome.as_ref().map(Vec::len).map_err(|error| *error);
        return equal("answer", &count(found), &count(due));
    };
    each(lines, due_lines, |line, due| {
        if line == due {
            Ok(())
        } else {
            Err(format!("{line} where {due} is due"))
        }
    })
}

/// Holds lines to the original's, where `letters` are those that it flattens the cue to.
pub fn beside(
    lines: &[Line],
    letters: &[Letter],
    theirs: &[reference::Line],
) -> Result<(), String> {
    let numbers: Vec<usize> = lines.iter().flat_map(|line| line.letters.clone()).collect();
    if !numbers.is_sorted_by(|one, next| one < next) {
        return Err("numbers that do not rise".to_string());
    }
    if numbers.last().is_some_and(|&last| last >= letters.len()) {
        return Err("a number of no letter".to_string());
    }
    each(lines, theirs, |line, theirs| {
        let due = letters::of_runs(&theirs.pieces);
        equal("letters", &line.letters.len(), &due.len())?;
        equal("columns", &line.columns, &theirs.columns)?;
        for (&number, due) in line.letters.iter().zip(due) {
            let styled = |letter: Letter| (letter.code, letter.style);
            equal("letter", &styled(letters[number]), &styled(due))?;
        }
        Ok(())
    })
}

fn equal<T: Debug + PartialEq>(what: &str, found: &T, due: &T) -> Result<(), String> {
    if found == due {
        Ok(())
    } else {
        Err(format!("{what}: {found:?} where {due:?} is due"))
    }
}

/// Holds each line to its counterpart, and their counts to each other.
fn each<T>(
    lines: &[Line],
    due: &[T],
    hold: impl Fn(&Line, &T) -> Result<(), String>,
) -> Result<(), String> {
    for (at, (line, due)) in lines.iter().zip(due).enumerate() {
        hold(line, due).map_err(|found| format!("line {at}: {found}"))?;
    }
    equal("lines", &lines.len(), &due.len())
}

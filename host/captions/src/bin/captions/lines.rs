//! `captions lines`: how a tape is broken into lines.

use crate::args::{self, Choice};
use crate::output::{self, Outcome};
use crate::tape::Reader;
use crate::{fault, input};
use captions::{COLUMNS_MAX, Line, Refusal, Workspace, wrap};

const ABOUT: &str = "\
usage: captions lines [--columns L] [--text] < cue.tape

Writes the word `lines` and how many there are; then of each line its index,
letters and columns. A refused tape gives the word `refused`, the refusal's
number and its place.

Lines are broken as with the default color FFFFFFFF: with another, the lines
that burn draws may be unlike these. So the tape 02 58 02 20 02 41 08 FF FF FF
02 42 00 at 3 columns gives X and AB here, and burn, with the default color
00FF00FF and as many columns, draws X A and B.
";

const CHOICES: [Choice<Options>; 2] = [
    Choice {
        name: "--columns",
        value: "L",
        takes: "a number from 1 to 4096",
        more: "the most columns of a line; 4 by default",
        set: |options, value| value.parse().ok().map(|columns| options.columns = columns),
    },
    Choice {
        name: "--text",
        value: "",
        takes: "writes the letters of each line too, behind a space",
        more: "controls as \\t or \\u{1}, a backslash as \\\\",
        set: |options, _| {
            options.text = true;
            Some(())
        },
    },
];

struct Options {
    columns: u32,
    text: bool,
}

pub fn command(words: &[String]) -> Outcome {
    if args::asks_help(words) {
        return output::write(args::help(ABOUT, &CHOICES).as_bytes());
    }
    let mut options = Options {
        columns: 4,
        text: false,
    };
    args::parse("lines", &CHOICES, words, &mut options)?;
    let tape = input::tape()?;
    match wrap(&tape, &mut Workspace::new(), options.columns) {
        Ok(lines) => output::write(table(&tape, &lines, options.text).as_bytes()),
        Err(refusal) => refused(&tape, refusal, options.columns),
    }
}

fn refused(tape: &[u8], refusal: Refusal, columns: u32) -> Outcome {
    let Refusal { cause, place } = refusal;
    output::write(format!("refused {} {place}\n", cause.number()).as_bytes())?;
    if (1..=COLUMNS_MAX).contains(&columns) {
        return Err(fault::failure(tape, refusal));
    }
    let words = format!("--columns is {columns}, and its range is 1 to {COLUMNS_MAX}");
    Err(fault::with_words(refusal, &words))
}

fn table(tape: &[u8], lines: &[Line], text: bool) -> String {
    let letters = Reader::at_end(tape).letters;
    let mut table = format!("lines {}\n", lines.len());
    for (index, line) in lines.iter().enumerate() {
        table += &format!("{index} {} {}", line.letters.len(), line.columns);
        if text {
            table += " ";
            table += &words(line, &letters);
        }
        table += "\n";
    }
    table
}

fn words(line: &Line, letters: &[char]) -> String {
    let numbers = line.letters.iter();
    let letters = numbers.filter_map(|number| letters.get(usize::from(*number)));
    letters.map(|letter| escaped(*letter)).collect()
}

fn escaped(letter: char) -> String {
    if letter.is_control() || letter == '\\' {
        letter.escape_default().to_string()
    } else {
        letter.to_string()
    }
}

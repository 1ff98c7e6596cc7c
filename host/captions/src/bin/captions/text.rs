//! `captions text`: words as a tape.

use crate::args::{self, Choice};
use crate::hex::hex;
use crate::input;
use crate::output::{self, Failure, Outcome};
use captions::{Command, LETTERS_MAX};
use std::fs::File;
use std::io::{self, BufReader, Bytes, Read};

const ABOUT: &str = "\
usage: captions text < words.txt > cue.tape

Writes words, UTF-8, as a tape: each letter in the shortest command that holds
its code point, and a newline as a break. CR LF is one newline, and a byte order
mark at the start is passed over; every other code point is a letter, controls
too. A cue has at most 4096 letters, breaks counted.
";

const CHOICES: [Choice<()>; 0] = [];

pub fn command(words: &[String]) -> Outcome {
    if args::asks_help(words) {
        return output::write(args::help(ABOUT, &CHOICES).as_bytes());
    }
    args::parse("text", &CHOICES, words, &mut ())?;
    let mut writer = Writer::new();
    writer.all(input::open()?)?;
    output::write(&writer.tape)
}

/// Words that cannot be written.
enum Fault {
    Unreadable(io::Error),
    /// They begin no letter of UTF-8, or are the start of one that the input ends in.
    NotUtf8(Vec<u8>),
    TooMany,
}

/// The tape so far, and where its next letter stands in the words.
struct Writer {
    tape: Vec<u8>,
    letters: usize,
    line: usize,
    column: usize,
    /// Whether the last letter is a CR.
    after_return: bool,
}

impl Writer {
    fn new() -> Writer {
        Writer {
            tape: Vec::new(),
            letters: 0,
            line: 1,
            column: 1,
            after_return: false,
        }
    }

    /// Reads no more than shows what the words come to: at the latest a letter too many ends it.
    fn all(&mut self, words: File) -> Outcome {
        let mut bytes = BufReader::new(words).bytes();
        let mut first = true;
        while let Some(letter) = next(&mut bytes).map_err(|fault| self.failure(fault))? {
            if !(first && letter == '\u{feff}') {
                self.put(letter).map_err(|fault| self.failure(fault))?;
            }
            first = false;
        }
        Ok(())
    }

    fn put(&mut self, letter: char) -> Result<(), Fault> {
        if letter == '\n' && self.after_return {
            // The two are one newline: it takes the place of the CR.
            self.tape.truncate(self.tape.len().saturating_sub(2));
            self.letters -= 1;
        }
        if self.letters == LETTERS_MAX {
            return Err(Fault::TooMany);
        }
        self.letters += 1;
        self.after_return = letter == '\r';
        if letter == '\n' {
            self.tape.push(Command::Break.byte());
            (self.line, self.column) = (self.line + 1, 1);
        } else {
            self.tape.extend(shortest(letter));
            self.column += 1;
        }
        Ok(())
    }

    fn failure(&self, fault: Fault) -> Failure {
        let Writer { line, column, .. } = self;
        let words = match fault {
            Fault::Unreadable(error) => return Failure::Input(error),
            Fault::NotUtf8(bytes) => not_utf8(&bytes),
            Fault::TooMany => format!("a cue has at most {LETTERS_MAX} letters, breaks counted"),
        };
        Failure::Refused(format!("line {line}, column {column}: {words}"))
    }
}

/// The shortest command that holds a letter's code point.
fn shortest(letter: char) -> Vec<u8> {
    match u32::from(letter).to_be_bytes() {
        [_, 0, 0, low] => vec![Command::Letter1.byte(), low],
        [_, 0, middle, low] => vec![Command::Letter2.byte(), middle, low],
        [_, high, middle, low] => vec![Command::Letter3.byte(), high, middle, low],
    }
}

/// The next letter, or `None` at the end. It takes a letter's bytes one by one, so that it waits
/// for none behind them.
fn next(bytes: &mut Bytes<BufReader<File>>) -> Result<Option<char>, Fault> {
    let mut held = Vec::new();
    for byte in bytes {
        held.push(byte.map_err(Fault::Unreadable)?);
        match str::from_utf8(&held) {
            Ok(letter) => return Ok(letter.chars().next()),
            Err(error) if error.error_len().is_some() => return Err(Fault::NotUtf8(held)),
            Err(_) => {}
        }
    }
    if held.is_empty() {
        Ok(None)
    } else {
        Err(Fault::NotUtf8(held))
    }
}

fn not_utf8(bytes: &[u8]) -> String {
    let hex = hex(bytes);
    let ends = str::from_utf8(bytes).is_err_and(|error| error.error_len().is_none());
    match bytes.len() {
        _ if ends => format!("the input ends within a letter, after {hex}"),
        1 => format!("the byte {hex} is not UTF-8"),
        _ => format!("the bytes {hex} are not UTF-8"),
    }
}

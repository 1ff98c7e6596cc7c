//! A refusal in words, as precise as the tape lets them be.

use crate::output::Failure;
use crate::tape::{Reader, number, width};
use captions::{Cause, Command, LETTERS_MAX, Refusal};

/// A refusal of which nothing more is known than the library says and the tape shows.
pub fn failure(tape: &[u8], refusal: Refusal) -> Failure {
    with_words(refusal, &words(tape, refusal))
}

/// A refusal whose cause is said in these words.
pub fn with_words(refusal: Refusal, words: &str) -> Failure {
    let Refusal { cause, place } = refusal;
    let number = cause.number();
    Failure::Refused(match cause.is_in_tape() {
        true => format!("refused {number} at byte {place}: {words}"),
        false => format!("refused {number}: {words}"),
    })
}

/// The part of the tape before the command at fault.
pub fn before(tape: &[u8], refusal: Refusal) -> &[u8] {
    tape.get(..refusal.place).unwrap_or(tape)
}

/// The command at fault, as much as there is of it: nothing where the tape ended too soon.
pub fn bytes(tape: &[u8], refusal: Refusal) -> &[u8] {
    let rest = tape.get(refusal.place..).unwrap_or(&[]);
    let width = rest.first().map_or(0, |command| 1 + width(*command));
    rest.get(..width).unwrap_or(rest)
}

pub fn words(tape: &[u8], refusal: Refusal) -> String {
    precise(tape, refusal).unwrap_or_else(|| refusal.cause.sentence().to_string())
}

fn precise(tape: &[u8], refusal: Refusal) -> Option<String> {
    if !refusal.cause.is_in_tape() {
        return None;
    }
    let reader = Reader::at_end(before(tape, refusal));
    let Some((command, operands)) = bytes(tape, refusal).split_first() else {
        return end(&reader);
    };
    Some(match refusal.cause {
        Cause::UnknownCommand => format!("{command:02X} is not a command: commands are 00 to 0B"),
        Cause::OperandsMissing => missing(*command, operands.len()),
        Cause::Unbalanced => "a 00 in the outer list".to_string(),
        Cause::NotAScalar => no_letter(number(operands)),
        Cause::TooDeep => {
            format!("the list that {command:02X} opens would lie deeper than 16 lists")
        }
        Cause::TooManyLetters => too_many(*command, &reader),
        Cause::NotInAName => in_name(*command, reader.name?),
        _ => return None,
    })
}

fn missing(command: u8, there: usize) -> String {
    let width = width(command);
    let bytes = if width == 1 { "byte" } else { "bytes" };
    let missing = width.saturating_sub(there);
    let are = if missing == 1 { "is" } else { "are" };
    format!("{command:02X} has {width} operand {bytes}, and {missing} {are} missing")
}

/// Where the tape ends.
fn end(reader: &Reader) -> Option<String> {
    let within = match reader.name {
        Some(voice) => format!("name of the voice at byte {voice}"),
        None => format!("list that byte {} opened", reader.lists.last()?),
    };
    Some(format!("the tape ends in the {within}"))
}

fn no_letter(code: u32) -> String {
    if code > u32::from(char::MAX) {
        format!("the code point {code:X} is over 10FFFF")
    } else {
        format!("the code point {code:X} is a surrogate")
    }
}

fn too_many(command: u8, reader: &Reader) -> String {
    // Of the commands that add letters, an end is that of a name.
    let (with, added) = match Command::of(command) {
        Some(Command::End) => ("with the \": \" of the name ", 2),
        _ => ("", 1),
    };
    let letters = reader.letters.len() + added;
    format!("{with}the cue would have {letters} letters, and {LETTERS_MAX} are the most")
}

fn in_name(command: u8, voice: usize) -> String {
    format!("{command:02X} is neither a letter nor 00, in the name of the voice at byte {voice}")
}

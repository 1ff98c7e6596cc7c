//! `captions show`: the commands of a tape.

use crate::args::{self, Choice};
use crate::hex::hex;
use crate::output::{self, Outcome};
use crate::tape::{Entry, Meaning, Reader};
use crate::{fault, input};
use captions::{COLUMNS_MAX, Cause, Refusal, Workspace, wrap};

const ABOUT: &str = "\
usage: captions show < cue.tape

Lists the commands of a tape, one a line: the offset of each, its bytes in
hexadecimal, and what it is, indented by the lists that it stands in. Where the
tape is refused, the commands before the one at fault are listed, and that one
is marked with > and what is wrong with it. A tape of more than 16384 bytes is
not listed.
";

const CHOICES: [Choice<()>; 0] = [];

pub fn command(words: &[String]) -> Outcome {
    if args::asks_help(words) {
        return output::write(args::help(ABOUT, &CHOICES).as_bytes());
    }
    args::parse("show", &CHOICES, words, &mut ())?;
    let tape = input::tape()?;
    match wrap(&tape, &mut Workspace::new(), COLUMNS_MAX) {
        Ok(_) if tape.is_empty() => output::write(b"the tape is empty\n"),
        Ok(_) => output::write(listing(&tape).as_bytes()),
        Err(refusal) => refused(&tape, refusal),
    }
}

fn refused(tape: &[u8], refusal: Refusal) -> Outcome {
    if refusal.cause != Cause::TapeTooLong {
        let listing = listing(fault::before(tape, refusal)) + &pointer(tape, refusal);
        output::write(listing.as_bytes())?;
    }
    Err(fault::failure(tape, refusal))
}

fn listing(tape: &[u8]) -> String {
    Reader::new(tape).map(|entry| line(&entry)).collect()
}

fn line(entry: &Entry) -> String {
    let words = "  ".repeat(entry.depth) + &words(entry.meaning);
    row(' ', entry.offset, entry.bytes, &words)
}

fn pointer(tape: &[u8], refusal: Refusal) -> String {
    let Refusal { cause, place } = refusal;
    let words = format!(
        "refused {}: {}",
        cause.number(),
        fault::words(tape, refusal)
    );
    row('>', place, fault::bytes(tape, refusal), &words)
}

fn row(mark: char, offset: usize, bytes: &[u8], words: &str) -> String {
    format!("{mark}{offset:>6}  {:<11}  {words}\n", hex(bytes))
}

fn words(meaning: Meaning) -> String {
    match meaning {
        Meaning::EndOfName => "end of the name, adds \": \"".to_string(),
        Meaning::EndOfList(opener) => format!("end of the list that byte {opener} opened"),
        Meaning::EmptyText => "empty text".to_string(),
        Meaning::Letter(letter) => format!("letter {}", code_point(letter)),
        Meaning::NameLetter(letter) => format!("letter of the name {}", code_point(letter)),
        Meaning::Break => "break".to_string(),
        Meaning::Bold => "bold".to_string(),
        Meaning::Italic => "italic".to_string(),
        Meaning::Color([red, green, blue]) => format!("color {red:02X}{green:02X}{blue:02X}"),
        Meaning::Voice => "voice".to_string(),
        Meaning::PlainGroup => "plain group".to_string(),
        Meaning::TimeMark => "time mark".to_string(),
    }
}

/// The code point, and the letter itself where it can be seen.
fn code_point(letter: char) -> String {
    let code = format!("U+{:04X}", u32::from(letter));
    match letter {
        ' ' => code + " space",
        '\t' => code + " tab",
        '\n' => code + ", which acts as a break",
        _ if is_printable(letter) => format!("{code} {letter}"),
        _ => code,
    }
}

/// Whether a letter can be seen by itself: those that cannot are the ones that Rust escapes, which
/// escapes quotation marks and the backslash too.
fn is_printable(letter: char) -> bool {
    matches!(letter, '\'' | '"' | '\\') || letter.escape_debug().eq([letter])
}

//! Gathers the definitions of the proved crates into one text that needs no tool to read.
//!
//! The text is the definitions as they stand, in reading order, without what only the prover needs:
//! first the notation and what a player needs, with the glyphs as numbers and examples, and then the
//! rest. It is refused where a reader would meet a name or a sign that nothing in it explains, or a
//! name with two meanings.

mod check;
mod declared;
mod glyphs;
mod part;
mod signs;
mod uses;

use part::{Declared, Part, Source};
use std::fs;
use std::path::Path;

/// The text, from the repository's root.
pub const FILE: &str = "deposit/definitions.txt";
/// What is written by hand, from the repository's root.
const PREFACE: &str = "docs/DEPOSIT.md";
const NOTATION: &str = "deposit/notation.txt";
const MORE_NOTATION: &str = "deposit/more-notation.txt";
const EXAMPLES: &str = "deposit/examples.txt";
/// Every glyph as the proved program `specimen` writes it.
const GLYPHS: &str = "crates/specimen/stdout";

/// Parts of a chapter: its title, their crate and their files.
type Chapter = (&'static str, &'static str, &'static [&'static str]);

/// What a player needs and what the examples ask for, in reading order.
const FOR_PLAYERS: [Chapter; 6] = [
    (
        "The tape",
        "tape",
        &["Outcome", "Style", "Command", "Runs", "Tape"],
    ),
    ("Lines", "wrap", &["Columns", "Lines"]),
    (
        "The font",
        "font",
        &["Glyphs", "Modes", "Font", "Ink", "Slant", "Blend", "Paint"],
    ),
    (
        "Drawing",
        "compositor",
        &["Settings", "Layout", "Outline", "Order", "Picture", "Draw"],
    ),
    ("The other calls", "wrap", &["Wrap"]),
    ("The other calls", "job", &["Stripes", "Work"]),
];

/// What stands behind the examples.
const BEHIND: [Chapter; 17] = [
    ("Positions in signed numbers", "compositor", &["Plain"]),
    ("From segments to tapes", "tape", &["Segments"]),
    ("What lines keep", "wrap", &["Shown"]),
    ("A stroke, row by row", "font", &["Upward"]),
    ("Glyph mode 1 by mode 0", "compositor", &["Replaced"]),
    ("Letters without ink", "compositor", &["Inkless"]),
    ("House settings", "compositor", &["House"]),
    ("Stripes by their ends", "job", &["Ends"]),
    ("What a call answers and leaves", "tape", &["Call"]),
    ("What a call answers and leaves", "wrap", &["Wrapped"]),
    ("What a call answers and leaves", "compositor", &["Drawn"]),
    ("What a call answers and leaves", "job", &["Worked"]),
    ("What a call answers and leaves", "tape", &["TapeRead"]),
    ("What any list of calls leaves", "job", &["History"]),
    ("The functions for C", "tape", &["Packed"]),
    ("The functions for C", "font", &["Colors"]),
    (
        "The functions for C",
        "captions",
        &["Interface", "HistoryInC"],
    ),
];

/// The signs as equations, at the very end.
const SIGNS: [Chapter; 1] = [("The signs as equations", "font", &["Signs"])];

/// The whole text, or what keeps a reader from understanding it.
pub fn gather(root: &Path) -> Result<String, String> {
    let [preface, notation, more, examples] =
        [PREFACE, NOTATION, MORE_NOTATION, EXAMPLES].map(|file| page(root, file));
    let (notation, more) = (notation?, more?);
    let players = parts(root, &FOR_PLAYERS)?;
    let behind = parts(root, &[&BEHIND[..], &SIGNS[..]].concat())?;
    let parts: Vec<&Part> = players.iter().chain(&behind).collect();
    let signs = [notation.as_str(), more.as_str()].concat();
    check::all_there(root, &parts)?;
    check::names(&parts, &signs)?;
    let texts = shown_parts(root, &parts)?;
    check::one_meaning(&parts, &texts)?;
    let (first, later) = texts.split_at(players.len());
    let text = [
        plain_headings(&preface?),
        contents(&players, &behind),
        heading("Notation"),
        notation,
        definitions(&players, first),
        heading("The glyphs as numbers"),
        glyphs::table(&read(root, GLYPHS)?),
        heading("Examples"),
        examples?,
        heading("More notation"),
        more,
        definitions(&behind, later),
    ]
    .concat();
    signs::check(&text, &signs)?;
    Ok(text)
}

/// Whether the committed text is the one that the definitions give.
pub fn check(root: &Path) -> Result<(), String> {
    let (due, there) = (gather(root)?, read(root, FILE)?);
    let mut lines = (1..).zip(due.lines().zip(there.lines()));
    match lines.find(|(_, (due, there))| due != there) {
        Some((number, (due, _))) => Err(format!(
            "{FILE} is stale: run tools/deposit. Its line {number} should be\n{due}"
        )),
        None if due == there => Ok(()),
        None => Err(format!(
            "{FILE} is stale: run tools/deposit. Its end differs"
        )),
    }
}

fn read(root: &Path, file: &str) -> Result<String, String> {
    fs::read_to_string(root.join(file)).map_err(|fault| format!("{file} cannot be read: {fault}"))
}

/// A page that is written by hand.
fn page(root: &Path, file: &str) -> Result<String, String> {
    let text = read(root, file)?;
    check::narrow(file, text.lines())?;
    Ok(text)
}

fn parts(root: &Path, chapters: &[Chapter]) -> Result<Vec<Part>, String> {
    let sources = chapters
        .iter()
        .flat_map(|(chapter, of, files)| files.iter().map(|file| Source { chapter, of, file }));
    sources
        .map(|source| {
            let text = read(root, &source.path())?;
            Part::new(source, &text)
        })
        .collect()
}

/// The texts of parts, each chapter under its title.
fn definitions(parts: &[Part], texts: &[String]) -> String {
    let mut chapter = "";
    let titled = parts.iter().zip(texts).map(|(part, text)| {
        let before = std::mem::replace(&mut chapter, part.source.chapter);
        if before == chapter {
            text.clone()
        } else {
            heading(chapter) + text
        }
    });
    titled.collect()
}

/// Each part as it is read.
fn shown_parts(root: &Path, parts: &[&Part]) -> Result<Vec<String>, String> {
    let mut shown = Vec::new();
    let texts = parts.iter().map(|part| shown_part(root, part, &mut shown));
    texts.collect()
}

/// A part, with the types that the code declares and that it is the first to speak of; it takes the
/// others from the parts that `shown` says show them.
fn shown_part<'a>(
    root: &Path,
    part: &'a Part,
    shown: &mut Vec<Declared<'a>>,
) -> Result<String, String> {
    let mut declarations = String::new();
    let mut earlier = Vec::new();
    for (of, path) in part.declared() {
        let same = |declared: &&Declared| (declared.of, declared.path) == (of, path);
        if let Some(declared) = shown.iter().find(same) {
            earlier.push(*declared);
            continue;
        }
        let declaration = declared::show(root, of, path)?;
        let part = part.source.file;
        let taken = |declared: &&Declared| declared.part != part && declared.is_in(&declaration);
        earlier.extend(shown.iter().filter(taken));
        declarations += &declaration;
        shown.push(Declared { of, path, part });
    }
    Ok(part.text(&declarations, &earlier))
}

fn heading(title: &str) -> String {
    let bar = "=".repeat(100);
    format!("\n{bar}\n{}\n{bar}\n\n", title.to_uppercase())
}

/// A text of Markdown with the headings that this one has.
fn plain_headings(text: &str) -> String {
    let lines = text.lines().map(|line| {
        if let Some(title) = line.strip_prefix("# ") {
            return heading(title).trim().to_owned() + "\n";
        }
        match line.strip_prefix("## ") {
            Some(title) => format!("{title}\n{}\n", "-".repeat(title.len())),
            None => format!("{line}\n"),
        }
    });
    lines.collect()
}

/// The table of contents: each chapter with its parts.
fn contents(players: &[Part], behind: &[Part]) -> String {
    format!(
        "\nWhat is here, in reading order:\n\n    Notation\n{}    The glyphs as numbers\n    Examples\n\
         \nBehind the examples stands what no player needs:\n\n    More notation\n{}",
        listed(players),
        listed(behind)
    )
}

fn listed(parts: &[Part]) -> String {
    let chapters = parts.chunk_by(|a, b| a.source.chapter == b.source.chapter);
    let lines = chapters.map(|chapter| {
        let names: Vec<_> = chapter.iter().map(|part| part.source.file).collect();
        format!("    {}: {}\n", chapter[0].source.chapter, names.join(", "))
    });
    lines.collect()
}

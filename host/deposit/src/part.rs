//! One file of definitions.

use crate::uses::{self, Use};
use crate::{check, signs};
use std::collections::BTreeMap;

/// The widest line of a comment or of a page by hand.
pub const COLUMNS: usize = 120;

/// Said of names that are written with their part's name before them.
const QUALIFIED: &str = "names written with its own before them";

/// Where a part comes from: the chapter that it is of, its crate and its file.
pub struct Source {
    pub chapter: &'static str,
    pub of: &'static str,
    pub file: &'static str,
}

impl Source {
    pub fn path(&self) -> String {
        format!("crates/{}/specs/{}.antt", self.of, self.file)
    }
}

/// A type that the code of a crate declares, and the part that shows it.
#[derive(Clone, Copy)]
pub struct Declared<'a> {
    pub of: &'a str,
    pub path: &'a [String],
    pub part: &'a str,
}

impl Declared<'_> {
    fn name(&self) -> &str {
        self.path.last().map_or("", String::as_str)
    }

    /// Whether a declaration speaks of this type.
    pub fn is_in(&self, declaration: &str) -> bool {
        signs::has_word(declaration, self.name())
    }
}

pub struct Part {
    pub source: Source,
    /// What it is about.
    head: String,
    pub uses: Vec<Use>,
    body: String,
}

impl Part {
    pub fn new(source: Source, text: &str) -> Result<Part, String> {
        let comments = text
            .lines()
            .filter(|line| line.trim_start().starts_with("--"));
        check::narrow(&source.path(), comments)?;
        let comment = text.lines().take_while(|line| line.starts_with("--"));
        let head = joined(comment.map(without_paper)).replace(" Definitions only.", "");
        let used = text.lines().filter_map(|line| line.strip_prefix("use "));
        let uses = used.map(uses::parse).collect::<Result<_, _>>()?;
        let rest = text
            .lines()
            .skip_while(|line| line.starts_with("--") || line.starts_with("use "));
        let body = joined(rest.filter(|line| !is_for_the_prover(line)).map(plain));
        Ok(Part {
            source,
            head,
            uses,
            body,
        })
    }

    /// The types that this part speaks of and the code declares: each crate and path there.
    pub fn declared(&self) -> impl Iterator<Item = (&str, &[String])> {
        self.uses.iter().filter_map(|used| match used {
            Use::Declared(of, path) => Some((of.as_str(), path.as_slice())),
            _ => None,
        })
    }

    /// The part as it is read, with the declarations that it is the first to need; it takes the
    /// others from earlier parts.
    pub fn text(&self, declarations: &str, earlier: &[Declared]) -> String {
        let bar = "-".repeat(100);
        let Part {
            source, head, body, ..
        } = self;
        let taken = self.taken(earlier);
        format!(
            "{bar}\n{}\n{bar}\n{head}{taken}{declarations}{body}\n",
            source.file
        )
    }

    /// Which parts the names come from that it does not define.
    fn taken(&self, earlier: &[Declared]) -> String {
        let declared = earlier
            .iter()
            .map(|declared| (declared.part, declared.name()));
        let used = self.uses.iter().flat_map(|used| match used {
            Use::Part(from, names) if names.is_empty() => vec![(from.as_str(), QUALIFIED)],
            Use::Part(from, names) => names
                .iter()
                .map(|name| (from.as_str(), name.as_str()))
                .collect(),
            _ => Vec::new(),
        });
        let mut taken: BTreeMap<&str, Vec<&str>> = BTreeMap::new();
        for (from, name) in declared.chain(used) {
            let names = taken.entry(from).or_default();
            if !names.contains(&name) {
                names.push(name);
            }
        }
        let listed: Vec<_> = taken
            .iter()
            .map(|(from, names)| format!("{from} ({})", names.join(", ")))
            .collect();
        match listed.as_slice() {
            [] => String::new(),
            listed => folded(&format!("Takes from {}.", listed.join("; "))),
        }
    }

    /// Whether a line of it introduces a name. What a record or a choice is told with may stand on
    /// lines of its own.
    pub fn introduces(&self, name: &str) -> bool {
        self.body.lines().any(|line| {
            let kind = ["record ", "data "]
                .iter()
                .find_map(|kind| line.strip_prefix(kind));
            if kind.is_some_and(|rest| rest.split_whitespace().next() == Some(name)) {
                return true;
            }
            let before = line.split(" : ").next().unwrap_or_default();
            let mut words = before
                .split_whitespace()
                .take_while(|word| !word.starts_with(['(', '{']));
            line.contains(" : ") && words.any(|word| word == name)
        })
    }
}

/// The names that definitions give, and of each whether a record has a part of that name.
pub fn given(text: &str) -> impl Iterator<Item = (&str, bool)> {
    let mut record = None;
    text.lines().flat_map(move |line| {
        let text = line.trim_start();
        let indent = line.len() - text.len();
        if record.is_some_and(|at| !text.is_empty() && indent <= at) {
            record = None;
        }
        let is_field = record.is_some();
        let names = match text.split_once(' ') {
            Some((kind @ ("record" | "data"), rest)) if rest.starts_with(char::is_uppercase) => {
                record = (kind == "record").then_some(indent);
                rest.split_whitespace().take(1).collect()
            }
            Some(("--" | "module", _)) => Vec::new(),
            _ => kinds(text),
        };
        names.into_iter().map(move |name| (name, is_field))
    })
}

/// The names that a line says the kind of; what they are told with is none.
fn kinds(line: &str) -> Vec<&str> {
    let Some((before, _)) = line.split_once(" : ") else {
        return Vec::new();
    };
    let is_name = |word: &&str| !word.starts_with(['(', '{', '→', '×', '=']);
    let words: Vec<&str> = before.split_whitespace().collect();
    match words.iter().all(is_name) {
        true => words,
        false => Vec::new(),
    }
}

/// A line of a head without the paragraph of the paper that it names: readers have no such paper.
fn without_paper(line: &str) -> String {
    match line.split_once(": document 0") {
        Some((title, _)) => format!("{title}."),
        None => line.to_owned(),
    }
}

/// Lines that tell the prover how to read the others.
fn is_for_the_prover(line: &str) -> bool {
    let line = line.trim_start();
    ["unfolding ", "infixr ", "infixl ", "infix "]
        .iter()
        .any(|word| line.starts_with(word))
}

/// A line without the words and marks that only the prover needs.
fn plain(line: &str) -> String {
    let text = line.trim_start();
    let indent = &line[..line.len() - text.len()];
    let mut text = text;
    while let Some(rest) = ["pub ", "abbrev ", "unfoldable "]
        .iter()
        .find_map(|word| text.strip_prefix(word))
    {
        text = rest;
    }
    // Marks stand around names in definitions, and are letters in comments.
    let (text, comment) = text.split_at(text.find("--").unwrap_or(text.len()));
    let text = text
        .replace(['«', '»'], "")
        .replace("Type 0", "Type")
        .replace(" {A = A}", "")
        .replace("Unit {0}", "Unit");
    format!("{indent}{text}{comment}")
}

fn joined<T: AsRef<str>>(lines: impl Iterator<Item = T>) -> String {
    lines.fold(String::new(), |text, line| text + line.as_ref() + "\n")
}

/// A comment of one or more lines.
fn folded(words: &str) -> String {
    let mut lines = vec![String::from("--")];
    for word in words.split(' ') {
        match lines.last_mut() {
            Some(line) if line.chars().count() + word.chars().count() < COLUMNS => {
                *line += &format!(" {word}")
            }
            _ => lines.push(format!("--   {word}")),
        }
    }
    joined(lines.iter())
}

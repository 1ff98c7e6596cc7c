//! The words of the command line.

use crate::output::{Failure, STATUSES};
use std::ffi::OsString;
use std::slice::Iter;

/// An option of a subcommand that sets something in a `T`.
pub struct Choice<T> {
    pub name: &'static str,
    /// What its value is called; empty where it takes none.
    pub value: &'static str,
    /// Which values it takes, or what it does where it takes none.
    pub takes: &'static str,
    /// What more the help says, its default too.
    pub more: &'static str,
    /// `None` where the value is none that it takes.
    pub set: fn(&mut T, &str) -> Option<()>,
}

pub fn words(words: impl Iterator<Item = OsString>) -> Result<Vec<String>, Failure> {
    words
        .map(|word| {
            word.into_string()
                .map_err(|word| usage("", &format!("the argument {word:?} is not UTF-8")))
        })
        .collect()
}

pub fn asks_help(words: &[String]) -> bool {
    words.iter().any(|word| word == "--help" || word == "-h")
}

/// What a subcommand is about, then its options, then the exit statuses.
pub fn help<T>(about: &str, choices: &[Choice<T>]) -> String {
    let options: String = choices.iter().map(Choice::help).collect();
    let blank = if options.is_empty() { "" } else { "\n" };
    format!("{about}\n{options}{blank}{STATUSES}")
}

/// What is wrong in the words, and where to look; `subcommand` is empty where there is none.
pub fn usage(subcommand: &str, wrong: &str) -> Failure {
    let space = if subcommand.is_empty() { "" } else { " " };
    Failure::Usage(format!("{wrong}; see captions{space}{subcommand} --help"))
}

pub fn extra(subcommand: &str, word: &str) -> Failure {
    let wrong = format!("the argument {word:?} is one too many (input comes from standard input)");
    usage(subcommand, &wrong)
}

/// Sets what the words say, `--name VALUE` or `--name=VALUE`; the last counts.
pub fn parse<T>(
    subcommand: &str,
    choices: &[Choice<T>],
    words: &[String],
    options: &mut T,
) -> Result<(), Failure> {
    let mut words = words.iter();
    while let Some(word) = words.next() {
        let choice = find(choices, word).ok_or_else(|| unknown(subcommand, word))?;
        let value = choice.value_in(word, &mut words);
        let value = value.map_err(|wrong| usage(subcommand, &wrong))?;
        (choice.set)(options, value).ok_or_else(|| {
            let wrong = format!("{} takes {}, not {value:?}", choice.name, choice.takes);
            usage(subcommand, &wrong)
        })?;
    }
    Ok(())
}

fn find<'a, T>(choices: &'a [Choice<T>], word: &str) -> Option<&'a Choice<T>> {
    let (name, _) = split(word);
    choices.iter().find(|choice| choice.name == name)
}

/// The name of an option, and its value where one follows in the same word.
fn split(word: &str) -> (&str, Option<&str>) {
    match word.split_once('=') {
        Some((name, value)) => (name, Some(value)),
        None => (word, None),
    }
}

fn unknown(subcommand: &str, word: &str) -> Failure {
    if !word.starts_with('-') {
        return extra(subcommand, word);
    }
    let (name, _) = split(word);
    usage(subcommand, &format!("{subcommand} has no option {name:?}"))
}

impl<T> Choice<T> {
    /// The value that stands in the option's word, or else the next word.
    fn value_in<'a>(&self, word: &'a str, next: &mut Iter<'a, String>) -> Result<&'a str, String> {
        let Choice { name, takes, .. } = self;
        match (self.value.is_empty(), split(word).1) {
            (true, None) => Ok(""),
            (true, Some(value)) => Err(format!("{name} takes no value, and {value:?} is one")),
            (false, Some(value)) => Ok(value),
            (false, None) => match next.next() {
                Some(value) => Ok(value),
                None => Err(format!("the value of {name} is missing: it takes {takes}")),
            },
        }
    }

    /// Its two lines of the help.
    fn help(&self) -> String {
        let Choice { takes, more, .. } = self;
        let head = format!("{} {}", self.name, self.value);
        format!("  {head:<24} {takes}\n  {:<24} {more}\n", "")
    }
}

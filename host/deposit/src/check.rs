//! That all definitions are there, that a reader meets no name that nothing explains, and none that
//! means two things.

use crate::part::{self, COLUMNS, Part};
use crate::signs;
use crate::uses::Use;
use std::fs;
use std::path::Path;

/// That each file of definitions of the parts' crates is among them.
pub fn all_there(root: &Path, parts: &[&Part]) -> Result<(), String> {
    let mut crates: Vec<_> = parts.iter().map(|part| part.source.of).collect();
    crates.sort_unstable();
    crates.dedup();
    let mut folders = crates.into_iter();
    folders.try_for_each(|of| folder_there(root, of, parts))
}

/// Files that are no definitions say so: their first word is `Promises`, and `Lib` only lists the
/// others.
fn folder_there(root: &Path, of: &str, parts: &[&Part]) -> Result<(), String> {
    let folder = root.join(format!("crates/{of}/specs"));
    let fault = |fault| format!("crates/{of}/specs: {fault}");
    for entry in fs::read_dir(folder).map_err(fault)? {
        let path = entry.map_err(fault)?.path();
        let name = path.file_stem().unwrap_or_default().to_string_lossy();
        let same = |part: &&Part| part.source.of == of && part.source.file == name;
        let text = fs::read_to_string(&path).map_err(fault)?;
        if !parts.iter().any(same) && name != "Lib" && !text.starts_with("-- Promises") {
            return Err(format!("{of}'s definitions {name} are in no chapter"));
        }
    }
    Ok(())
}

/// That each name is explained before it is used.
pub fn names(parts: &[&Part], notation: &str) -> Result<(), String> {
    let mut places = parts.iter().enumerate();
    places.try_for_each(|(place, part)| {
        let earlier = &parts[..place];
        let mut uses = part.uses.iter();
        let found = uses.try_for_each(|used| explained(used, earlier, notation));
        found.map_err(|fault| format!("{} takes {fault}", part.source.file))
    })
}

/// In the notation, or by an earlier part.
fn explained(used: &Use, earlier: &[&Part], notation: &str) -> Result<(), String> {
    match used {
        Use::Library(names) => known(names, |name| {
            signs::has_word(notation, name.trim_matches('◌'))
        }),
        Use::Part(from, names) => {
            let part = earlier.iter().find(|part| part.source.file == from);
            let part = part.ok_or(format!("names from {from}, which does not stand before it"))?;
            known(names, |name| part.introduces(name))
        }
        Use::Declared(..) => Ok(()),
    }
}

fn known(names: &[String], is_known: impl Fn(&str) -> bool) -> Result<(), String> {
    match names.iter().find(|name| !is_known(name)) {
        Some(name) => Err(format!("the name {name}, which nothing explains")),
        None => Ok(()),
    }
}

/// That each name is given to one thing: what two parts define, or one part twice, has two names. Parts
/// of records may share one, which then means the same in each; no definition has it.
pub fn one_meaning(parts: &[&Part], texts: &[String]) -> Result<(), String> {
    let mut given: Vec<(&str, &str, bool)> = Vec::new();
    for (part, text) in parts.iter().zip(texts) {
        let file = part.source.file;
        for (name, is_field) in part::given(text) {
            let same =
                |(other, _, fields): &&(&str, &str, bool)| *other == name && !(*fields && is_field);
            if let Some((_, other, _)) = given.iter().find(same) {
                return Err(format!("{other} and {file} both give the name {name}"));
            }
            given.push((name, file, is_field));
        }
    }
    Ok(())
}

/// That no line is too wide to be read.
pub fn narrow<'a>(file: &str, lines: impl Iterator<Item = &'a str>) -> Result<(), String> {
    let mut wide = (1..)
        .zip(lines)
        .filter(|(_, line)| line.chars().count() > COLUMNS);
    match wide.next() {
        Some((number, _)) => Err(format!(
            "{file}: line {number} has over {COLUMNS} characters"
        )),
        None => Ok(()),
    }
}

//! Names that a part takes from elsewhere.

/// The library whose words the notation explains.
const LIBRARY: &str = "std";

/// One line of them.
pub enum Use {
    Library(Vec<String>),
    /// A part, and those of its names; none are listed where each is written with the part's name
    /// before it.
    Part(String, Vec<String>),
    /// A type that the code of a crate declares, by its path there.
    Declared(String, Vec<String>),
}

/// Reads `PATH.{a, b}` or `PATH as NAME`.
pub fn parse(line: &str) -> Result<Use, String> {
    let (path, names) = match line.split_once(".{") {
        Some((path, names)) => (path, words(names.trim_end_matches('}'), ", ")),
        None => {
            let renamed = line.split_once(" as ");
            let (path, _) = renamed.ok_or(format!("`use {line}` is not understood"))?;
            (path, Vec::new())
        }
    };
    let ours = path.strip_prefix("Rattle.");
    let Some((of, from)) = ours.and_then(|path| path.split_once(".specs.")) else {
        return Ok(Use::Library(names));
    };
    if of == LIBRARY {
        return Ok(Use::Library(names));
    }
    Ok(match from.strip_prefix("declared.") {
        Some(path) => Use::Declared(of.to_owned(), words(path, ".")),
        None => Use::Part(from.to_owned(), names),
    })
}

fn words(text: &str, between: &str) -> Vec<String> {
    text.split(between).map(str::to_owned).collect()
}

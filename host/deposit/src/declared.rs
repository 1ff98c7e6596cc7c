//! Records that the code declares: the definitions speak of them, so they are shown in the
//! definitions' own notation.

use std::fs;
use std::path::Path;

/// The declaration of a type, from the path that definitions name it by: the modules of its crate's
/// code, and then its own name.
pub fn show(root: &Path, of: &str, path: &[String]) -> Result<String, String> {
    let (name, modules) = path.split_last().ok_or("a declared type has no name")?;
    let file = match modules {
        [] => format!("crates/{of}/src/lib.rt"),
        modules => format!("crates/{of}/src/{}.rt", modules.join("/")),
    };
    let code = fs::read_to_string(root.join(&file)).map_err(|fault| format!("{file}: {fault}"))?;
    let lines: Vec<&str> = code.lines().collect();
    let opened = format!("pub struct {name} {{");
    let at = lines
        .iter()
        .position(|line| *line == opened)
        .ok_or(format!("{file} declares no {name}"))?;
    // What the compiler derives for it stands between.
    let comment = lines[..at]
        .iter()
        .rev()
        .skip_while(|line| line.starts_with("#["))
        .take_while(|line| line.starts_with("// "));
    let mut shown: Vec<String> = comment.map(|line| line.replacen("//", "--", 1)).collect();
    shown.push(String::new());
    shown.reverse();
    shown.push(format!("record {name} where"));
    for line in lines[at + 1..].iter().take_while(|line| **line != "}") {
        shown.push(match line.trim().strip_prefix("//") {
            Some(comment) => format!("  --{comment}"),
            None => field(line)?,
        });
    }
    Ok(shown.join("\n") + "\n")
}

/// A part of a record.
fn field(line: &str) -> Result<String, String> {
    let line = line.trim().trim_start_matches("pub ").trim_end_matches(',');
    let (name, of) = line
        .split_once(": ")
        .ok_or(format!("`{line}` is no field"))?;
    let (of, note) = type_of(of);
    let note = if note.is_empty() {
        String::new()
    } else {
        format!("  -- {note}")
    };
    Ok(format!("  {name} : {of}{note}"))
}

/// A type as definitions write it, and what is to be known of its numbers.
fn type_of(of: &str) -> (&str, &str) {
    match of {
        "bool" => ("Bool", ""),
        "u8" => ("ℕ", "a byte: below 256"),
        "u32" => ("ℕ", "below 2^32"),
        "usize" => ("ℕ", ""),
        "[u8; 4]" => ("List ℕ", "4 bytes"),
        "[u32; 64]" => ("List ℕ", "64 numbers below 2^32"),
        other => (other, ""),
    }
}

//! That no sign and no word stands in the text that a reader could not know.

/// Words that would lead out of the text: to proofs, to code, to tools, or to papers.
const OUTSIDE: [&str; 8] = [
    "proofs/",
    "specs/",
    "src/",
    ".antt",
    ".rt",
    "Rattle",
    "promise",
    "ocument 0",
];

/// Each sign beyond ASCII is one that the notation names, or one of the letters that the glyphs' own
/// comments show.
pub fn check(text: &str, notation: &str) -> Result<(), String> {
    if let Some(word) = OUTSIDE.iter().find(|word| text.contains(**word)) {
        return Err(format!("the text speaks of `{word}`, which is outside it"));
    }
    let known = |sign: char| {
        sign.is_ascii() || ('\u{a1}'..='\u{ff}').contains(&sign) || notation.contains(sign)
    };
    match text.chars().find(|sign| !known(*sign)) {
        Some(sign) => Err(format!(
            "the notation does not name the sign {sign} (U+{:04X})",
            sign as u32
        )),
        None => Ok(()),
    }
}

/// Whether a text has a word: no letter, no digit and no _ stands beside it. Signs are found anywhere.
pub fn has_word(text: &str, word: &str) -> bool {
    if !word.starts_with(char::is_alphanumeric) {
        return text.contains(word);
    }
    let joins = |sign: Option<char>| sign.is_some_and(|sign| sign.is_alphanumeric() || sign == '_');
    text.match_indices(word).any(|(at, _)| {
        !joins(text[..at].chars().next_back()) && !joins(text[at + word.len()..].chars().next())
    })
}

//! Changes of the original's text as it is built, each by a piece that must stand there as often as is
//! said, so that another text is found out and not changed by guess.

/// A piece of a text, how often it stands there, and what takes its place.
pub type Change = (&'static str, usize, &'static str);

/// The text with these changes, in order, or what was not found in it.
pub fn changed(text: &str, changes: &[Change]) -> Result<String, String> {
    let mut text = text.to_string();
    for (from, times, to) in changes {
        stands(&text, from, *times)?;
        text = text.replace(from, to);
    }
    Ok(text)
}

/// Whether a piece stands in the text so many times.
pub fn stands(text: &str, piece: &str, times: usize) -> Result<(), String> {
    match text.matches(piece).count() {
        found if found == times => Ok(()),
        found => Err(format!("`{piece}` stands there {found} times, not {times}")),
    }
}

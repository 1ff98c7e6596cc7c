//! The original's draw loop with a counter in it, made of the original's own text as it is built.

use crate::changes::{Change, changed, stands};

/// The loop's methods, and what makes each its counted twin: another name, and strokes that go
/// through `Strokes` of `append/compositor.rs`.
const METHODS: [(&str, [Change; 2]); 2] = [
    (
        "render_into_bitmap",
        [
            (
                "fn render_into_bitmap(&self, ",
                1,
                "fn counted_bitmap(&self, strokes: &Strokes, ",
            ),
            ("self.draw_line(", 1, "self.counted_line(strokes, "),
        ],
    ),
    (
        "draw_line",
        [
            (
                "fn draw_line(&self, ",
                1,
                "fn counted_line(&self, strokes: &Strokes, ",
            ),
            ("font.draw_glyph_sheared(", 2, "strokes.draw(font, "),
        ],
    ),
];

/// The counted methods of the compositor whose text this is, or what was not found in it.
pub fn methods(text: &str) -> Result<String, String> {
    let mut counted = "\nimpl Compositor {".to_string();
    for (name, changes) in METHODS {
        counted += &changed(method(text, name)?, &changes)?;
    }
    Ok(counted + "}\n")
}

/// Whether the font looks a letter's glyph up where it draws it and nowhere else, so that what
/// `append/font.rs` asks is asked of the glyph that is drawn.
pub fn lookup(text: &str) -> Result<(), String> {
    stands(text, "self.glyph_rows(ch)", 1)
}

/// A method's text: from its name, which stands there once, to the first brace as far in.
fn method<'a>(text: &'a str, name: &str) -> Result<&'a str, String> {
    const END: &str = "\n    }\n";
    let starts: Vec<_> = text.match_indices(&format!("\n    fn {name}(")).collect();
    let [(start, _)] = starts[..] else {
        return Err(format!("`fn {name}` stands there {} times", starts.len()));
    };
    match text[start..].find(END) {
        Some(length) => Ok(&text[start..start + length + END.len()]),
        None => Err(format!("`fn {name}` has no end")),
    }
}

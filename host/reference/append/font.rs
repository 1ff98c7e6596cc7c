
// What follows is appended to the build's copy of the original file, whose text stands above as it
// is: the way to its private lookup.

impl BitmapFont {
    /// Whether the glyph that is drawn for a letter has ink: a row of it is not zero.
    pub(crate) fn has_ink(&self, ch: char) -> bool {
        self.glyph_rows(ch) != [0; 16]
    }
}

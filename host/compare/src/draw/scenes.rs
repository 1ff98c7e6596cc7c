//! The cues whose drawing is timed.

use crate::draw::cases::{Colors, marked};
use crate::draw::settings::{House, OUTLINE_CAP_MAX, SLANT_MAX, Settings};
use crate::random::Random;
use crate::tape::segments::MOST_LETTERS;
use oxideav_core::Segment;

/// A picture that as many letters as there may be fill.
const FILLED: (u32, u32) = (1024, 640);

const WORDS: &str = "The quick brown fox jumps over the lazy dog, and so on; ";
/// Of 55 letters nine are among those that glyph mode 1 replaces.
const CURLY: &str = "“It’s ‘quick’,” said the fox — “or was” – to the dogs. ";

/// A cue of one text, and what it is drawn with.
pub struct Scene {
    pub name: String,
    width: u32,
    height: u32,
    outline: u32,
    text: String,
    bold_italic: bool,
    pub glyph_mode: u32,
    house: House,
}

pub fn scenes() -> Vec<Scene> {
    let (large, small, largest) = ((1920, 1080), (640, 360), (3840, 2160));
    let all = || words(MOST_LETTERS);
    vec![
        Scene::new("two lines of 32 letters", large, 1, lines(2, 32)),
        Scene::new("ten lines of 40 letters", large, 2, lines(10, 40)).bold_italic(),
        Scene::new("a line of 12 letters", small, 1, words(12)),
        Scene::new("4096 letters", largest, 1, all()),
        Scene::new("4096 letters", largest, 2, all()),
    ]
}

/// Cues of which no letter has more than one stroke, or whose letters stand in no order; one in glyph
/// mode 1; and one with the strongest slant and the most outline that there may be, at which the
/// original's changed text is timed.
pub fn harder_scenes() -> Vec<Scene> {
    let curly = over_and_over(CURLY, MOST_LETTERS);
    vec![
        Scene::new("4096 letters", FILLED, 0, words(MOST_LETTERS)),
        Scene::new("4096 letters at random", FILLED, 0, at_random()).bold_italic(),
        Scene::new("4096 letters at random", FILLED, 1, at_random()).bold_italic(),
        Scene::new("4096 letters, some curly", FILLED, 0, curly).in_mode_1(),
        Scene::new("4096 letters", FILLED, OUTLINE_CAP_MAX, words(MOST_LETTERS))
            .bold_italic()
            .slanted(),
    ]
}

/// So many letters of words.
fn words(letters: usize) -> String {
    over_and_over(WORDS, letters)
}

fn over_and_over(words: &str, letters: usize) -> String {
    words.chars().cycle().take(letters).collect()
}

fn lines(count: usize, letters: usize) -> String {
    vec![words(letters); count].join("\n")
}

/// As many letters as there may be, whose order a processor cannot foresee.
fn at_random() -> String {
    let mut random = Random::new(0, 0);
    let mut letter = || random.within_u32(0x21..=0x7e);
    (0..MOST_LETTERS)
        .filter_map(|_| char::from_u32(letter()))
        .collect()
}

impl Scene {
    fn new(name: &str, (width, height): (u32, u32), outline: u32, text: String) -> Scene {
        Scene {
            name: format!("{name}, {width} x {height}, outline {outline}"),
            width,
            height,
            outline,
            text,
            bold_italic: false,
            glyph_mode: 0,
            house: House::ORIGINAL,
        }
    }

    fn in_mode_1(self) -> Scene {
        Scene {
            name: format!("{}, glyph mode 1", self.name),
            glyph_mode: 1,
            ..self
        }
    }

    fn slanted(self) -> Scene {
        Scene {
            name: format!("{0}, slant {SLANT_MAX}, cap {OUTLINE_CAP_MAX}", self.name),
            house: House {
                slant: SLANT_MAX,
                outline_cap: OUTLINE_CAP_MAX,
                ..self.house
            },
            ..self
        }
    }

    fn bold_italic(self) -> Scene {
        Scene {
            name: self.name.replacen(',', ", bold italic,", 1),
            bold_italic: true,
            ..self
        }
    }

    /// So many letters, in a picture that as many as there may be fill.
    pub fn filling(letters: usize) -> Scene {
        Scene::new(&format!("{letters} letters"), FILLED, 1, words(letters))
    }

    pub fn segments(&self) -> Vec<Segment> {
        let text = Segment::Text(self.text.clone());
        marked(self.bold_italic, self.bold_italic, vec![text])
    }

    pub fn settings(&self, [default_color, outline_color]: Colors) -> Settings {
        Settings {
            width: self.width,
            height: self.height,
            default_color,
            outline_color,
            line_height: 20,
            bottom_margin: 24,
            outline: self.outline,
            alignment: 0,
            glyph_mode: self.glyph_mode,
            house: self.house,
        }
    }
}

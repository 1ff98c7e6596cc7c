//! What the random frames met.

use crate::draw::due::Strokes;
use crate::draw::frame::Drawn;
use crate::draw::settings::Settings;
use std::collections::BTreeMap;

struct Met<'a> {
    settings: &'a Settings,
    /// How many of its letters glyph mode 1 replaces.
    curly: usize,
    strokes: &'a Strokes,
    /// Its picture's pixels.
    pixels: &'a [[u8; 4]],
}

type Kind = (&'static str, fn(&Met) -> bool);

const KINDS: [Kind; 15] = [
    ("something to see", |met| met.pixels.iter().any(lit)),
    ("first column lit", |met| met.column(0)),
    ("last column lit", |met| {
        met.column(met.settings.width as usize - 1)
    }),
    ("first row lit", |met| met.row(0)),
    ("last row lit", |met| {
        met.row(met.settings.height as usize - 1)
    }),
    ("outline 1", |met| met.settings.outline == 1),
    ("outline 2", |met| met.settings.outline == 2),
    ("outline over 2", |met| met.settings.outline > 2),
    ("translucent letters", |met| {
        translucent(met.settings.default_color)
    }),
    ("translucent outline", |met| {
        met.settings.outline > 0 && translucent(met.settings.outline_color)
    }),
    ("letters replaced", |met| {
        met.settings.glyph_mode == 1 && met.curly > 0
    }),
    ("letters without ink on lines", |met| {
        !met.strokes.inkless.is_empty()
    }),
    ("letters on lines, none with ink", |met| {
        !met.strokes.inkless.is_empty() && met.strokes.total == 0
    }),
    ("side over 1000", |met| {
        met.settings.width.max(met.settings.height) > 1000
    }),
    ("width of whole cells", |met| {
        met.settings.width.is_multiple_of(8)
    }),
];

impl Met<'_> {
    fn column(&self, column: usize) -> bool {
        let rows = self.pixels.chunks_exact(self.settings.width as usize);
        rows.into_iter().any(|row| lit(&row[column]))
    }

    fn row(&self, row: usize) -> bool {
        let width = self.settings.width as usize;
        self.pixels[row * width..][..width].iter().any(lit)
    }
}

fn lit(pixel: &[u8; 4]) -> bool {
    *pixel != [0; 4]
}

fn translucent(color: [u8; 4]) -> bool {
    (1..255).contains(&color[3])
}

#[derive(Default)]
pub struct Kinds {
    frames: u64,
    strokes: usize,
    alignments: [u64; 5],
    modes: [u64; 2],
    met: [u64; KINDS.len()],
}

impl Kinds {
    /// Counts a frame whose settings are within their ranges, with so many letters that glyph mode 1
    /// replaces, and these strokes.
    pub fn add(&mut self, settings: &Settings, curly: usize, strokes: &Strokes, drawn: &Drawn) {
        self.frames += 1;
        self.strokes += strokes.total;
        self.alignments[settings.alignment as usize] += 1;
        self.modes[settings.glyph_mode as usize] += 1;
        let (pixels, _) = drawn.bytes[..settings.area()].as_chunks();
        if pixels.is_empty() {
            return;
        }
        let met = Met {
            settings,
            curly,
            strokes,
            pixels,
        };
        for (count, (_, kind)) in self.met.iter_mut().zip(KINDS) {
            *count += u64::from(kind(&met));
        }
    }

    pub fn show(&self) {
        let met: BTreeMap<_, _> = KINDS.iter().map(|(name, _)| name).zip(self.met).collect();
        println!(
            "random frames: {} of {} strokes, by alignment {:?}, by glyph mode {:?}, among them {met:?}",
            self.frames, self.strokes, self.alignments, self.modes
        );
    }
}

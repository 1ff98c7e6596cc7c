//! A cue as the original draws it, stopped and begun anywhere.

use crate::draw::due::{self, Strokes};
use crate::draw::settings::{House, Settings};
use oxideav_core::{Segment, SubtitleCue};
use reference::{Original, replaced};
use std::ops::Range;

pub struct Theirs<'a> {
    original: &'a Original,
    pub settings: Settings,
    cue: SubtitleCue,
    /// All strokes of the cue.
    pub total: usize,
    /// Of each letter on a line that has no ink, how many strokes come before it.
    pub inkless: Vec<usize>,
    /// Its picture after so many strokes, the last that was asked for.
    stopped: Option<(usize, Vec<u8>)>,
}

impl<'a> Theirs<'a> {
    pub fn new(original: &'a Original, settings: Settings, segments: Vec<Segment>) -> Theirs<'a> {
        let Strokes { total, inkless } = due::strokes(original, &settings, &segments);
        let positioning = settings.positioning(false);
        Theirs {
            original,
            settings,
            cue: SubtitleCue {
                segments,
                positioning,
            },
            total,
            inkless,
            stopped: None,
        }
    }

    /// How many of its letters glyph mode 1 replaces.
    pub fn curly(&self) -> usize {
        replaced::count(&self.cue.segments)
    }

    /// The whole picture.
    pub fn whole(&self) -> Vec<u8> {
        self.whole_at(self.settings.house)
    }

    /// The whole picture, where the house settings are these.
    pub fn whole_at(&self, house: House) -> Vec<u8> {
        let settings = Settings {
            house,
            ..self.settings
        };
        let mut bytes = vec![0; settings.area()];
        self.original.render_into(&settings, &self.cue, &mut bytes);
        bytes
    }

    /// The picture after its first strokes, so many.
    pub fn after(&mut self, strokes: usize) -> &[u8] {
        let kept = self.stopped.take().filter(|(after, _)| *after == strokes);
        let (_, bytes) = self.stopped.insert(kept.unwrap_or_else(|| {
            let mut bytes = vec![0; self.settings.area()];
            self.original
                .render_strokes(&self.settings, &self.cue, &mut bytes, strokes);
            (strokes, bytes)
        }));
        bytes
    }

    /// Draws the strokes with these numbers over the bytes, and answers how many there are in all.
    pub fn draw(&self, bytes: &mut [u8], window: Range<usize>) -> usize {
        self.original
            .draw_strokes(&self.settings, &self.cue, bytes, window)
    }
}

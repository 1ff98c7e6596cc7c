//! What stands in the original's place where it is missing: a type that has no value.

use crate::settings::Settings;
use crate::{Line, Run, Stroke};
use oxideav_core::{Segment, SubtitleCue};
use std::ops::Range;

/// The original. There is none here, so no method of this type is ever called.
pub enum Original {}

impl Original {
    pub(crate) fn find(_changed: bool) -> Option<Original> {
        None
    }

    /// Draws one glyph, where the original is at hand.
    pub fn draw_glyph_sheared(&self, _stroke: &Stroke, _dst: &mut [u8], _w: u32, _h: u32) {
        match *self {}
    }

    /// The rows that the original draws for a code point, where it is at hand.
    pub fn glyph_rows(&self, _bold: bool, _code: u32) -> Option<[u8; 16]> {
        match *self {}
    }

    /// Whether a letter's glyph has ink, where the original is at hand.
    pub fn has_ink(&self, _bold: bool, _ch: char) -> bool {
        match *self {}
    }

    /// The runs of segments, where the original is at hand.
    pub fn flatten_segments(&self, _segments: &[Segment], _color: [u8; 4]) -> Vec<Run> {
        match *self {}
    }

    /// The lines of segments, where the original is at hand.
    pub fn wrap(&self, _segments: &[Segment], _color: [u8; 4], _max_cols: usize) -> Vec<Line> {
        match *self {}
    }

    /// The lines that are drawn of segments, where the original is at hand.
    pub fn lines(&self, _settings: &Settings, _segments: &[Segment]) -> Vec<Line> {
        match *self {}
    }

    /// How many lines there are, where the original is at hand.
    pub fn count_lines(&self, _segments: &[Segment], _color: [u8; 4], _max_cols: usize) -> usize {
        match *self {}
    }

    /// Draws a cue, where the original is at hand.
    pub fn render_into(&self, _settings: &Settings, _cue: &SubtitleCue, _dst: &mut [u8]) {
        match *self {}
    }

    /// Draws a cue's first strokes, where the original is at hand.
    pub fn render_strokes(
        &self,
        _settings: &Settings,
        _cue: &SubtitleCue,
        _dst: &mut [u8],
        _strokes: usize,
    ) -> usize {
        match *self {}
    }

    /// Draws some of a cue's strokes, where the original is at hand.
    pub fn draw_strokes(
        &self,
        _settings: &Settings,
        _cue: &SubtitleCue,
        _dst: &mut [u8],
        _window: Range<usize>,
    ) -> usize {
        match *self {}
    }
}

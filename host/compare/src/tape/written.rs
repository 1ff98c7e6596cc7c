//! Segments written as a tape, from document 01.

use crate::random::Random;
use oxideav_core::Segment;

struct Writer<'a> {
    tape: Vec<u8>,
    /// Decides where a letter takes a longer command than it needs.
    longer: Option<&'a mut Random>,
}

/// A tape of the segments. Now and then a letter takes a longer command than it needs.
pub fn tape(random: &mut Random, segments: &[Segment]) -> Vec<u8> {
    write(Some(random), segments)
}

/// The shortest tape of the segments.
pub fn shortest(segments: &[Segment]) -> Vec<u8> {
    write(None, segments)
}

fn write(longer: Option<&mut Random>, segments: &[Segment]) -> Vec<u8> {
    let mut writer = Writer {
        tape: Vec::new(),
        longer,
    };
    writer.list(segments);
    writer.tape
}

impl Writer<'_> {
    fn list(&mut self, segments: &[Segment]) {
        for segment in segments {
            self.segment(segment);
        }
    }

    fn segment(&mut self, segment: &Segment) {
        match segment {
            Segment::Text(words) | Segment::Raw(words) if words.is_empty() => self.tape.push(0x01),
            Segment::Text(words) | Segment::Raw(words) => self.letters(words),
            Segment::LineBreak => self.tape.push(0x05),
            Segment::Timestamp {} => self.tape.push(0x0b),
            Segment::Bold(children) => self.group(&[0x06], children),
            Segment::Italic(children) => self.group(&[0x07], children),
            Segment::Color {
                rgb: (red, green, blue),
                children,
            } => self.group(&[0x08, *red, *green, *blue], children),
            Segment::Voice { name, children } => {
                self.tape.push(0x09);
                self.letters(name);
                self.group(&[0x00], children);
            }
            Segment::Underline(children)
            | Segment::Strike(children)
            | Segment::Font { children }
            | Segment::Class { children }
            | Segment::Karaoke { children } => self.group(&[0x0a], children),
        }
    }

    fn group(&mut self, opener: &[u8], children: &[Segment]) {
        self.tape.extend(opener);
        self.list(children);
        self.tape.push(0x00);
    }

    fn letters(&mut self, words: &str) {
        for ch in words.chars() {
            self.letter(ch);
        }
    }

    fn letter(&mut self, ch: char) {
        let [_, high, middle, low] = u32::from(ch).to_be_bytes();
        let shortest = match (high, middle) {
            (0, 0) => 1,
            (0, _) => 2,
            _ => 3,
        };
        let mut width = shortest;
        if let Some(random) = &mut self.longer
            && random.one_in(4)
        {
            width = random.within(shortest..=3);
        }
        match width {
            1 => self.tape.extend([0x02, low]),
            2 => self.tape.extend([0x03, middle, low]),
            _ => self.tape.extend([0x04, high, middle, low]),
        }
    }
}

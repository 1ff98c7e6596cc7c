//! The options of `captions burn`, and of `captions keep`, which has the settings alone.

use crate::args::Choice;
use captions::{
    Align, GlyphMode, LINE_HEIGHT_MAX, OUTLINE_CAP_MAX, SIDE_MARGIN_MAX, SIDE_MAX, SLANT_MAX,
    Settings,
};

const COLOR: &str = "a color in hexadecimal, RRGGBB or RRGGBBAA";

pub struct Options {
    pub settings: Settings,
    /// How many rows a stripe has.
    pub stripes: Option<u32>,
    /// Where stripes end. Neither is there where the frame is drawn whole.
    pub stripe_ends: Option<Vec<u32>>,
    /// How many strokes are done at a time; none where they are all.
    pub budget: Option<u32>,
}

impl Options {
    pub fn new() -> Options {
        Options {
            settings: Settings::new(640, 360),
            stripes: None,
            stripe_ends: None,
            budget: None,
        }
    }

    /// The settings that are outside their ranges, with these.
    pub fn out_of_range(&self) -> Vec<String> {
        let Settings {
            width,
            height,
            line_height_px,
            side_margin_px,
            slant,
            outline_cap_px,
            ..
        } = self.settings;
        let ranges = [
            ("--width", width, SIDE_MAX),
            ("--height", height, SIDE_MAX),
            ("--line-height", line_height_px, LINE_HEIGHT_MAX),
            ("--side-margin", side_margin_px, SIDE_MARGIN_MAX),
            ("--slant", slant, SLANT_MAX),
            ("--outline-cap", outline_cap_px, OUTLINE_CAP_MAX),
        ];
        let outside = ranges.into_iter().filter(|(_, value, most)| value > most);
        outside
            .map(|(name, value, most)| format!("{name} is {value}, and its range is 0 to {most}"))
            .collect()
    }
}

/// How many of the choices are settings; those behind them say how a frame is drawn.
pub const SETTINGS: usize = 12;

pub const CHOICES: [Choice<Options>; 15] = [
    Choice {
        name: "--width",
        value: "PIXELS",
        takes: "a number from 0 to 4096",
        more: "640 by default",
        set: |options, value| number(&mut options.settings.width, value),
    },
    Choice {
        name: "--height",
        value: "PIXELS",
        takes: "a number from 0 to 4096",
        more: "360 by default",
        set: |options, value| number(&mut options.settings.height, value),
    },
    Choice {
        name: "--default-color",
        value: "COLOR",
        takes: COLOR,
        more: "of letters outside color lists; FFFFFFFF by default",
        set: |options, value| color(&mut options.settings.default_color, value),
    },
    Choice {
        name: "--outline-color",
        value: "COLOR",
        takes: COLOR,
        more: "000000FF by default",
        set: |options, value| color(&mut options.settings.outline_color, value),
    },
    Choice {
        name: "--line-height",
        value: "PIXELS",
        takes: "a number from 0 to 1024",
        more: "under 16 it counts as 16; 20 by default",
        set: |options, value| number(&mut options.settings.line_height_px, value),
    },
    Choice {
        name: "--bottom-margin",
        value: "PIXELS",
        takes: "a number from 0 to 4294967295",
        more: "24 by default",
        set: |options, value| number(&mut options.settings.bottom_margin_px, value),
    },
    Choice {
        name: "--outline",
        value: "PIXELS",
        takes: "a number from 0 to 4294967295",
        more: "over --outline-cap it counts as that; 1 by default",
        set: |options, value| number(&mut options.settings.outline_px, value),
    },
    Choice {
        name: "--align",
        value: "WHERE",
        takes: "center (or centre), left, start, right or end",
        more: "center by default",
        set: |options, value| align(&mut options.settings.align, value),
    },
    Choice {
        name: "--glyph-mode",
        value: "MODE",
        takes: "0 or 1",
        more: "1 draws ‘ ’ “ ” – — as ' ' \" \" - -; 0 by default",
        set: |options, value| glyph_mode(&mut options.settings.glyph_mode, value),
    },
    Choice {
        name: "--side-margin",
        value: "PIXELS",
        takes: "a number from 0 to 255",
        more: "from the side a line is aligned to; 8 by default",
        set: |options, value| number(&mut options.settings.side_margin_px, value),
    },
    Choice {
        name: "--slant",
        value: "EIGHTHS",
        takes: "a number from 0 to 8",
        more: "of a cell's width, that italic leans; 2 by default",
        set: |options, value| number(&mut options.settings.slant, value),
    },
    Choice {
        name: "--outline-cap",
        value: "PIXELS",
        takes: "a number from 0 to 4",
        more: "the most that --outline counts as; 2 by default",
        set: |options, value| number(&mut options.settings.outline_cap_px, value),
    },
    Choice {
        name: "--stripes",
        value: "ROWS",
        takes: "a number from 1 to 4294967295",
        more: "draws in stripes so high, at most 64 of them",
        set: |options, value| number(options.stripes.insert(0), value),
    },
    Choice {
        name: "--stripe-ends",
        value: "ROWS",
        takes: "rows with commas between them, as 300,340,360",
        more: "draws in stripes that end before these, at most 64",
        set: |options, value| ends(options.stripe_ends.insert(Vec::new()), value),
    },
    Choice {
        name: "--budget",
        value: "STROKES",
        takes: "a number from 1 to 4294967295",
        more: "in stripes: so many at a time; all by default",
        set: |options, value| {
            number(options.budget.insert(0), value)?;
            options.budget.filter(|budget| *budget > 0).map(drop)
        },
    },
];

fn number(to: &mut u32, value: &str) -> Option<()> {
    *to = value.parse().ok()?;
    Some(())
}

/// An empty value has none, and is right for a frame without rows.
fn ends(to: &mut Vec<u32>, value: &str) -> Option<()> {
    if value.is_empty() {
        return Some(());
    }
    let numbers = value.split(',').map(|word| word.parse().ok());
    *to = numbers.collect::<Option<Vec<u32>>>()?;
    Some(())
}

/// Six or eight hexadecimal digits, with a # before them or not; six have alpha FF.
fn color(to: &mut [u8; 4], value: &str) -> Option<()> {
    let digits = value.strip_prefix('#').unwrap_or(value);
    if !digits.bytes().all(|digit| digit.is_ascii_hexdigit()) {
        return None;
    }
    let number = u32::from_str_radix(digits, 16).ok()?;
    *to = match digits.len() {
        6 => (number << 8 | 0xff).to_be_bytes(),
        8 => number.to_be_bytes(),
        _ => return None,
    };
    Some(())
}

fn align(to: &mut Align, value: &str) -> Option<()> {
    *to = match value {
        "center" | "centre" => Align::Center,
        "left" => Align::Left,
        "start" => Align::Start,
        "right" => Align::Right,
        "end" => Align::End,
        _ => return None,
    };
    Some(())
}

fn glyph_mode(to: &mut GlyphMode, value: &str) -> Option<()> {
    *to = match value {
        "0" => GlyphMode::Kept,
        "1" => GlyphMode::Replaced,
        _ => return None,
    };
    Some(())
}

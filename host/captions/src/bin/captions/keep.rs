//! `captions keep`: what an archive keeps beside a tape.

use crate::options::{CHOICES, Options, SETTINGS};
use crate::output::{self, Outcome};
use crate::{args, burn};
use captions::Settings;

const ABOUT: &str = "\
usage: captions keep [options] < cue.tape

Writes what an archive keeps beside a tape, as the deposit's first page says it:
the settings on one line, how many strokes the cue has, and its picture's sum,
that of each of its bytes times its number, counted from 1. Whoever draws the
tape again can hold the picture to it.

An option is `--name VALUE` or `--name=VALUE`; of two the last counts. A color
may have a # before it, and RRGGBB has alpha FF.
";

pub fn command(words: &[String]) -> Outcome {
    let choices = &CHOICES[..SETTINGS];
    if args::asks_help(words) {
        return output::write(args::help(ABOUT, choices).as_bytes());
    }
    let mut options = Options::new();
    args::parse("keep", choices, words, &mut options)?;
    let (strokes, picture) = burn::frame(&options)?;
    let (settings, sum) = (line(&options.settings), sum(&picture));
    output::write(format!("settings {settings}\nstrokes {strokes}\nsum {sum}\n").as_bytes())
}

/// The settings in the order in which the deposit has them.
fn line(settings: &Settings) -> String {
    let Settings {
        width,
        height,
        default_color,
        outline_color,
        line_height_px,
        bottom_margin_px,
        outline_px,
        align,
        glyph_mode,
        side_margin_px,
        slant,
        outline_cap_px,
    } = settings;
    let [letters, outline] = [default_color, outline_color].map(|color| u32::from_be_bytes(*color));
    let (align, glyph_mode) = (*align as u32, *glyph_mode as u32);
    format!(
        "{width} {height} {letters:08X} {outline:08X} {line_height_px} {bottom_margin_px} \
         {outline_px} {align} {glyph_mode} {side_margin_px} {slant} {outline_cap_px}"
    )
}

/// Below 2^60: at most 255 times the sum of the numbers up to 2^26, as many as there are bytes.
fn sum(picture: &[u8]) -> u64 {
    let bytes = (1..).zip(picture);
    bytes.map(|(number, byte)| number * u64::from(*byte)).sum()
}

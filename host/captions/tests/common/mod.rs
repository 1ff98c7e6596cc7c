//! What the tests share.
#![allow(dead_code)] // each test file uses some of it

use captions::raw;
use captions::{Align, Record, Settings, Stripes};

/// What buffers hold before a call.
pub const PAINT: u8 = 0xA5;

/// A text's letters as a tape, each in the shortest command that holds it; a newline is a break.
pub fn tape(text: &str) -> Vec<u8> {
    text.chars().flat_map(command).collect()
}

fn command(letter: char) -> Vec<u8> {
    let [_, high, middle, low] = u32::from(letter).to_be_bytes();
    match u32::from(letter) {
        0x0A => vec![5],
        0..=0xFF => vec![2, low],
        0x100..=0xFFFF => vec![3, middle, low],
        _ => vec![4, high, middle, low],
    }
}

/// A picture of so many pixels with letters at the left, white, without an outline.
pub fn plain(width: u32, height: u32) -> Settings {
    Settings {
        line_height_px: 16,
        bottom_margin_px: 0,
        outline_px: 0,
        align: Align::Left,
        ..Settings::new(width, height)
    }
}

/// `plain` as the library takes it.
pub fn raw_plain(width: u32, height: u32) -> raw::Settings {
    raw::Settings {
        width,
        height,
        default_color: 0xFFFF_FFFF,
        outline_color: 0x0000_00FF,
        line_height: 16,
        bottom_margin: 0,
        outline: 0,
        alignment: 1,
        glyph_mode: 0,
        side_margin: 8,
        slant: 2,
        outline_cap: 2,
    }
}

/// A buffer as long as the picture and so many bytes more, painted.
pub fn painted(settings: &Settings, more: usize) -> Vec<u8> {
    vec![PAINT; settings.new_picture().len() + more]
}

/// Stripes of one height, which fit the picture.
pub fn equal(settings: &Settings, stripe_height: u32) -> Stripes {
    Stripes::of_height(settings.height, stripe_height).expect("they fit")
}

/// At most 64 ends that rise to a height, mostly fewer.
pub fn rising_ends(random: &mut Random, height: u32) -> Vec<u32> {
    if height == 0 {
        return Vec::new();
    }
    let rows = (0..random.under(64)).map(|_| random.under(height));
    let mut ends: Vec<u32> = rows.chain([height]).filter(|row| *row > 0).collect();
    ends.sort_unstable();
    ends.dedup();
    ends
}

/// The record of a job in stripes that has done nothing, whether they fit a picture or not.
pub fn record_of(raw::Stripes { count, ends }: raw::Stripes) -> Record {
    Record {
        count,
        ends,
        ..Record::ZEROS
    }
}

/// The same of stripes of one height, in a picture so high.
pub fn record(height: u32, stripe_height: u32) -> Record {
    record_of(raw::Stripes::of_height(height, stripe_height))
}

/// A small generator (splitmix64): a seed gives the same numbers everywhere.
pub struct Random(pub u64);

impl Random {
    pub fn next(&mut self) -> u64 {
        self.0 = self.0.wrapping_add(0x9E37_79B9_7F4A_7C15);
        let mixed = (self.0 ^ (self.0 >> 30)).wrapping_mul(0xBF58_476D_1CE4_E5B9);
        let mixed = (mixed ^ (mixed >> 27)).wrapping_mul(0x94D0_49BB_1331_11EB);
        mixed ^ (mixed >> 31)
    }

    /// A number under this one.
    pub fn under(&mut self, limit: u32) -> u32 {
        (self.next() % u64::from(limit)) as u32
    }

    pub fn one_in(&mut self, count: u32) -> bool {
        self.under(count) == 0
    }

    pub fn color(&mut self) -> [u8; 4] {
        (self.next() as u32).to_be_bytes()
    }
}

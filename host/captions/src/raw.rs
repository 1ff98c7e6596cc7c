//! The functions of `libcaptions.a` as they are: numbers, structs of numbers, slices of any length,
//! and one number as the answer. `include/captions.h` says what each means.
#![allow(unsafe_code)]

pub use crate::record::Record;
use crate::stripes::PLACES;

/// The settings, in the order that the library reads them; a color is 0xRRGGBBAA.
#[derive(Clone, Copy, Debug, PartialEq, Eq)]
#[repr(C)]
pub struct Settings {
    pub width: u32,
    pub height: u32,
    pub default_color: u32,
    pub outline_color: u32,
    pub line_height: u32,
    pub bottom_margin: u32,
    pub outline: u32,
    pub alignment: u32,
    pub glyph_mode: u32,
    pub side_margin: u32,
    pub slant: u32,
    pub outline_cap: u32,
}

/// How a picture is cut into stripes: their ends are the first `count` entries, and the others are not
/// read. It takes anything; [`captions::Stripes`](crate::Stripes) is one that fits a picture.
#[derive(Clone, Copy, Debug, PartialEq, Eq)]
#[repr(C)]
pub struct Stripes {
    pub count: u32,
    pub ends: [u32; PLACES],
}

impl Stripes {
    /// Stripes of one height, of which the last may be lower. Where they are too many, the count says
    /// how many, and there are as many ends as have a place; of height 0 there is one, which ends at
    /// row 0. Open refuses both.
    pub fn of_height(height: u32, stripe_height: u32) -> Stripes {
        let count = match stripe_height {
            0 => 1,
            rows => height.div_ceil(rows),
        };
        let mut ends = [0; PLACES];
        for (end, stripes) in ends.iter_mut().zip(1..=count) {
            *end = stripe_height.saturating_mul(stripes).min(height);
        }
        Stripes { count, ends }
    }
}

/// The bytes that a call is lent.
pub struct Buffers<'a> {
    pub tape: &'a [u8],
    pub workspace: &'a mut [u8],
    /// A buffer that begins with the picture.
    pub picture: &'a mut [u8],
}

// The calls below are safe for one reason: each pointer and length are those of one slice, and each
// reference is to one struct of numbers, lent for the call alone. Every tape, length, number,
// record and division into stripes is allowed.

/// Breaks a tape's letters into lines, and answers how many the workspace then begins with.
pub fn wrap(tape: &[u8], workspace: &mut [u8], column_limit: u32) -> u64 {
    unsafe extern "C" {
        fn captions_wrap(
            tape: *const u8,
            tape_len: usize,
            workspace: *mut u8,
            workspace_len: usize,
            column_limit: u32,
        ) -> u64;
    }
    // Safety: as said above.
    unsafe {
        captions_wrap(
            tape.as_ptr(),
            tape.len(),
            workspace.as_mut_ptr(),
            workspace.len(),
            column_limit,
        )
    }
}

/// Declares a function of the library that draws, and calls it. Each takes settings and the buffers
/// first; what one takes behind them is named here as `include/captions.h` declares it.
macro_rules! call {
    ($function:ident($settings:ident, $buffers:ident $(, $name:ident: $type:ty)*)) => {{
        unsafe extern "C" {
            fn $function(
                settings: &Settings,
                tape: *const u8,
                tape_len: usize,
                workspace: *mut u8,
                workspace_len: usize,
                picture: *mut u8,
                picture_len: usize,
                $($name: $type),*
            ) -> u64;
        }
        // Safety: as said above.
        unsafe {
            $function(
                $settings,
                $buffers.tape.as_ptr(),
                $buffers.tape.len(),
                $buffers.workspace.as_mut_ptr(),
                $buffers.workspace.len(),
                $buffers.picture.as_mut_ptr(),
                $buffers.picture.len(),
                $($name),*
            )
        }
    }};
}

/// Draws a tape's cue, and answers how many strokes it took.
pub fn draw(settings: &Settings, buffers: Buffers) -> u64 {
    call!(captions_draw(settings, buffers))
}

/// Clears the picture for a tape's cue, gives the record of these stripes, and answers how many
/// strokes the cue has.
pub fn open(settings: &Settings, buffers: Buffers, stripes: &Stripes, record: &mut Record) -> u64 {
    call!(captions_open(settings, buffers, stripes: &Stripes, record: &mut Record))
}

/// Does the next strokes of a stripe, at most its budget, and answers how many.
pub fn work(
    settings: &Settings,
    buffers: Buffers,
    record: &mut Record,
    stripe: u32,
    budget: u32,
) -> u64 {
    call!(captions_work(settings, buffers, record: &mut Record, stripe: u32, budget: u32))
}

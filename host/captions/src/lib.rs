//! Bitmap captions, drawn by the proved library `libcaptions.a`.
//!
//! A cue comes in as a tape of bytes. [`draw`] draws it whole, [`wrap`] breaks it into lines, and
//! [`Job`] draws it in stripes, a budget of strokes at a time, and can be stored and resumed. What
//! is not admitted comes back as a [`Refusal`], and the picture stays as it was; no call panics.
//!
//! ```
//! use captions::{Settings, Workspace, draw};
//!
//! let settings = Settings::new(320, 180);
//! let mut picture = settings.new_picture();
//! let strokes = draw(&settings, b"\x02H\x02i", &mut Workspace::new(), &mut picture)?;
//! assert_eq!(strokes, 2 * 9); // two letters with ink, each with eight for its outline
//! # Ok::<(), captions::Refusal>(())
//! ```

mod command;
mod job;
mod lines;
pub mod raw;
mod record;
mod refusal;
mod settings;
mod stripes;
mod workspace;

pub use command::Command;
pub use job::Job;
pub use lines::{COLUMNS_MAX, Line, wrap};
pub use record::{OLD_RECORD_BYTES, RECORD_BYTES, Record};
pub use refusal::{Cause, Refusal, Result};
pub use settings::{
    Align, GlyphMode, LINE_HEIGHT_MAX, OUTLINE_CAP_MAX, SIDE_MARGIN_MAX, SIDE_MAX, SLANT_MAX,
    Settings,
};
pub use stripes::{STRIPES_MAX, Stripes};
pub use workspace::{WORKSPACE_BYTES, Workspace};

/// The most bytes of a tape.
pub const TAPE_MAX: usize = 16_384;
/// The most letters of a cue.
pub const LETTERS_MAX: usize = 4_096;

/// Draws a tape's cue on a cleared picture, and answers how many strokes it took.
///
/// A letter on a line that has ink is one stroke, and eight more for each pixel of outline up to its
/// cap. One without ink has none: a space, a control, the no-break space and the soft hyphen. Whether
/// a stroke can be seen makes no difference.
///
/// `picture` begins with the picture: its rows from the top, each its pixels from the left, four
/// bytes a pixel, red, green, blue and alpha. The bytes after it stay.
pub fn draw(
    settings: &Settings,
    tape: &[u8],
    workspace: &mut Workspace,
    picture: &mut [u8],
) -> Result<u32> {
    let buffers = raw::Buffers {
        tape,
        workspace: workspace.bytes(),
        picture,
    };
    refusal::answer(raw::draw(&settings.raw(), buffers))
}

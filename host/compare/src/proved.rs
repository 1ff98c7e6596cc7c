//! The proved calls that draw.

use crate::draw::settings::Settings;
use crate::refusal::{self, Refusal};
pub use captions::raw::Buffers;
use captions::raw::{self, Record, Stripes};

/// What Open or Work is asked for.
#[derive(Clone, Copy, Debug)]
#[expect(clippy::large_enum_variant, reason = "there is one at a time")]
pub enum Ask {
    Open { stripes: Stripes },
    Work { stripe: u32, budget: u32 },
}

/// Draws a tape's cue, and answers how many strokes it took.
pub fn draw(settings: &Settings, buffers: Buffers) -> Result<usize, Refusal> {
    refusal::halves(raw::draw(&raw(settings), buffers))
}

/// Opens or works, as asked, and answers how many strokes the cue has or how many were done.
pub fn ask(
    settings: &Settings,
    buffers: Buffers,
    record: &mut Record,
    ask: Ask,
) -> Result<usize, Refusal> {
    let settings = &raw(settings);
    refusal::halves(match ask {
        Ask::Open { stripes } => raw::open(settings, buffers, &stripes, record),
        Ask::Work { stripe, budget } => raw::work(settings, buffers, record, stripe, budget),
    })
}

/// The settings as the calls take them.
fn raw(settings: &Settings) -> raw::Settings {
    raw::Settings {
        width: settings.width,
        height: settings.height,
        default_color: u32::from_be_bytes(settings.default_color),
        outline_color: u32::from_be_bytes(settings.outline_color),
        line_height: settings.line_height,
        bottom_margin: settings.bottom_margin,
        outline: settings.outline,
        alignment: settings.alignment,
        glyph_mode: settings.glyph_mode,
        side_margin: settings.house.side_margin,
        slant: settings.house.slant,
        outline_cap: settings.house.outline_cap,
    }
}

//! How long the proved Draw takes, beside the original on the same cues.

use crate::draw::cases::{Colors, OPAQUE, TRANSLUCENT};
use crate::draw::scenes::{Scene, harder_scenes, scenes};
use crate::draw::settings::Settings;
use crate::proved::{self, Buffers};
use crate::tape::{ROOM, written};
use crate::timing::{in_turn, micros};
use oxideav_core::SubtitleCue;
use reference::{Original, replaced};
use std::fmt::Write;
use std::hint::black_box;

const FRAMES: &str = "
Draw, ours / theirs in µs. The original's cue is one text, which it draws fastest. Painting is the
frame's time less that of a frame with an empty cue, which is cleared alone: reading and wrapping
count with it.

| Cue | Colors | Frame | Ratio | Painting | Ratio |
|---|---|---|---|---|---|
";

const GROWTH: &str = "
Painting at 1024 x 640, which 4096 letters fill, with outline 1, ours / theirs in ns a letter.

| Letters | Opaque | Ratio | Translucent | Ratio |
|---|---|---|---|---|
";

/// How long a frame takes, and how long its painting: what an empty cue of the same settings, which
/// is cleared alone, does not take.
struct Times {
    frame: f64,
    painting: f64,
}

/// Two tables: frames of several kinds, and letters from few to as many as there may be.
pub fn tables(original: &Original) -> String {
    let mut text = FRAMES.to_string();
    for scene in scenes().into_iter().chain(harder_scenes()) {
        for (name, colors) in [("opaque", OPAQUE), ("translucent", TRANSLUCENT)] {
            let [ours, theirs] = times(&scene, original, colors);
            let _ = writeln!(
                text,
                "| {} | {name} | {} | {} |",
                scene.name,
                ratio(ours.frame, theirs.frame),
                ratio(ours.painting, theirs.painting)
            );
        }
    }
    text + &growth(original)
}

fn growth(original: &Original) -> String {
    let mut text = GROWTH.to_string();
    for letters in (6..=12).map(|power| 1 << power) {
        let scene = Scene::filling(letters);
        let [opaque, translucent] = [OPAQUE, TRANSLUCENT].map(|colors| {
            let [ours, theirs] = times(&scene, original, colors);
            let each = |times: Times| 1000.0 * times.painting / letters as f64;
            ratio(each(ours), each(theirs))
        });
        let _ = writeln!(text, "| {letters} | {opaque} | {translucent} |");
    }
    text
}

fn ratio(ours: f64, theirs: f64) -> String {
    format!("{ours:.2} / {theirs:.2} | {:.2}", ours / theirs)
}

/// Ours and theirs, on one buffer in turn. The original is handed the letters that glyph mode 1 replaces
/// already replaced.
fn times(scene: &Scene, original: &Original, colors: Colors) -> [Times; 2] {
    let settings = scene.settings(colors);
    let fed = Settings {
        glyph_mode: 0,
        ..settings
    };
    let segments = [scene.segments(), Vec::new()];
    let tapes = segments
        .each_ref()
        .map(|segments| written::shortest(segments));
    let cues = segments.map(|segments| SubtitleCue {
        segments: match scene.glyph_mode {
            1 => replaced::all(&segments),
            _ => segments,
        },
        positioning: None,
    });
    let (mut workspace, mut picture) = (vec![0; ROOM], vec![0; settings.area()]);
    let best = in_turn(|call| match call {
        0 | 1 => {
            let buffers = Buffers {
                tape: black_box(&tapes[call]),
                workspace: &mut workspace,
                picture: &mut picture,
            };
            let _ = black_box(proved::draw(&settings, buffers));
        }
        _ => {
            let cue = black_box(&cues[call - 2]);
            original.render_into(&fed, cue, black_box(&mut picture));
        }
    });
    let [ours, our_clearing, theirs, their_clearing] = best.map(micros);
    [(ours, our_clearing), (theirs, their_clearing)].map(|(frame, clearing)| Times {
        frame,
        painting: frame - clearing,
    })
}

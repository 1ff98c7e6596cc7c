//! How long the proved Open and Work take. The original has neither.

use crate::draw::cases::OPAQUE;
use crate::draw::scenes::{Scene, scenes};
use crate::draw::settings::Settings;
use crate::proved::{self, Ask, Buffers};
use crate::tape::segments::MOST_LETTERS;
use crate::tape::{ROOM, written};
use crate::timing::{in_turn, micros};
use crate::work::record::{self, Ends, Record, STRIPES, Stripes, ending, equal};
use crate::wrap;
use std::fmt::Write;
use std::hint::black_box;
use std::time::Duration;

const ONE: &str = "
Work of one stroke at 1024 x 640, which 4096 letters fill, with outline 1, in µs: the first stroke,
the middle one and the last, a call on each stripe in turn, of which this is the mean. Beside it Wrap
of the same tape at the same limit, which reads and wraps alone, and Draw.

| Letters | Stripes | First | Middle | Last | Wrap | Draw |
|---|---|---|---|---|---|---|
";

const WHOLE: &str = "
Open and then each stripe whole, in µs, and over Draw of the same cue: in one stripe, and in stripes
of a 4th, a 16th and a 64th of the rows, rounded up.

| Cue | Draw | One | Ratio | 4th | Ratio | 16th | Ratio | 64th | Ratio |
|---|---|---|---|---|---|---|---|---|---|
";

const PARTS: [u32; 4] = [1, 4, 16, 64];

const LOW: &str = "
Two lines of 32 letters at the bottom of 1920 x 1080, with outline 1, in thin stripes under a tall one
and in stripes of one height, in µs: Draw, Open and then each stripe whole, this over Draw, and the
longest of these Works.

| Stripes | Count | Draw | Whole | Ratio | Longest Work |
|---|---|---|---|---|---|
";

/// The rows of the tall stripe, and of each thin one.
const TALL: usize = 900;
const THIN: usize = 20;

/// A cue's tape, and what its calls are buffers.
struct Desk {
    settings: Settings,
    tape: Vec<u8>,
    workspace: Vec<u8>,
    picture: Vec<u8>,
}

/// Three tables: one stroke, whole cues in stripes of one height, and one in thin stripes.
pub fn tables() -> String {
    let mut text = ONE.to_string();
    for letters in [64, 512, MOST_LETTERS] {
        for stripe_height in [640, 40] {
            let mut desk = Desk::new(&Scene::filling(letters));
            let stripes = equal(desk.settings.height, stripe_height);
            let _ = writeln!(text, "| {letters} | {} |", desk.one_stroke(&stripes));
        }
    }
    text += WHOLE;
    for scene in scenes().into_iter().chain([Scene::filling(MOST_LETTERS)]) {
        let _ = writeln!(text, "| {} | {} |", scene.name, Desk::new(&scene).whole());
    }
    text + &low()
}

fn low() -> String {
    let mut text = LOW.to_string();
    let mut desk = Desk::new(&scenes()[0]);
    let height = desk.settings.height;
    let thin: Vec<u32> = (TALL as u32..=height).step_by(THIN).collect();
    let count = thin.len() as u32;
    for (name, stripes) in [
        (
            format!("ending at {TALL}, and every {THIN} rows"),
            ending(&thin),
        ),
        (
            "as many of one height".to_string(),
            equal(height, height.div_ceil(count)),
        ),
        (format!("{THIN} rows each"), equal(height, THIN as u32)),
    ] {
        let _ = writeln!(text, "| {name} | {} |", desk.longest(&stripes));
    }
    text
}

impl Desk {
    fn new(scene: &Scene) -> Desk {
        let settings = scene.settings(OPAQUE);
        Desk {
            settings,
            tape: written::shortest(&scene.segments()),
            workspace: vec![0; ROOM],
            picture: vec![0; settings.area()],
        }
    }

    fn one_stroke(&mut self, stripes: &Stripes) -> String {
        let mut record = record::opened(stripes);
        let stripes = record.stripes();
        let total = self.draw() as u32;
        let counters = [0, total / 2, total.saturating_sub(1)];
        let best: [_; 5] = in_turn(|call| match call {
            0..3 => {
                record.counters[..stripes].fill(counters[call]);
                self.each_stripe(&mut record, 1);
            }
            3 => self.wrap(),
            _ => {
                self.draw();
            }
        });
        let [first, middle, last, wrap, draw] = best.map(micros);
        let [first, middle, last] = [first, middle, last].map(|time| time / stripes as f64);
        format!("{stripes} | {first:.2} | {middle:.2} | {last:.2} | {wrap:.2} | {draw:.2}")
    }

    fn whole(&mut self) -> String {
        let height = self.settings.height;
        let parts = PARTS.map(|part| equal(height, height.div_ceil(part)));
        let best: [_; 5] = in_turn(|call| match call {
            4 => {
                self.draw();
            }
            _ => self.open_and_all(&parts[call]),
        });
        let [parts @ .., draw] = best.map(micros);
        let mut text = format!("{draw:.2}");
        for part in parts {
            let _ = write!(text, " | {part:.2} | {:.2}", part / draw);
        }
        text
    }

    fn longest(&mut self, stripes: &Stripes) -> String {
        let [whole, draw] = in_turn(|call| match call {
            0 => self.open_and_all(stripes),
            _ => {
                self.draw();
            }
        })
        .map(micros);
        let mut record = record::opened(stripes);
        let works: [Duration; STRIPES] = in_turn(|stripe| {
            if stripe < stripes.stripes() {
                record.counters[stripe] = 0;
                self.work(&mut record, stripe as u32, u32::MAX);
            }
        });
        let longest = works.map(micros).into_iter().fold(0.0, f64::max);
        let (count, ratio) = (stripes.count, whole / draw);
        format!("{count} | {draw:.2} | {whole:.2} | {ratio:.2} | {longest:.2}")
    }

    /// What a call is told and lent.
    fn told(&mut self) -> (Settings, Buffers<'_>) {
        let buffers = Buffers {
            tape: black_box(&self.tape),
            workspace: &mut self.workspace,
            picture: &mut self.picture,
        };
        (self.settings, buffers)
    }

    /// Answers how many strokes there are; no call here is refused.
    fn draw(&mut self) -> usize {
        let (settings, buffers) = self.told();
        black_box(proved::draw(&settings, buffers)).unwrap_or_default()
    }

    fn wrap(&mut self) {
        let limit = self.settings.limit() as u32;
        let (_, buffers) = self.told();
        let _ = black_box(wrap::proved::wrap(buffers.tape, buffers.workspace, limit));
    }

    /// Opens, and then does each stripe whole.
    fn open_and_all(&mut self, stripes: &Stripes) {
        let mut record = record::ZEROS;
        let (settings, buffers) = self.told();
        let ask = Ask::Open { stripes: *stripes };
        let _ = black_box(proved::ask(&settings, buffers, &mut record, ask));
        self.each_stripe(&mut record, u32::MAX);
    }

    /// Works with the budget on every stripe of the record.
    fn each_stripe(&mut self, record: &mut Record, budget: u32) {
        for stripe in 0..record.count {
            self.work(record, stripe, budget);
        }
    }

    fn work(&mut self, record: &mut Record, stripe: u32, budget: u32) {
        let (settings, buffers) = self.told();
        let ask = Ask::Work { stripe, budget };
        let _ = black_box(proved::ask(&settings, buffers, record, ask));
    }
}

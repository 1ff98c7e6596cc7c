
// What follows is appended to the build's copies of the original file, whose text stands above, as it
// is or with its numbers made settings: the way to its private functions.

/// A run's text, bold, italic and color.
pub type Opened = (String, bool, bool, [u8; 4]);

/// The runs that the original flattens segments to.
pub fn flatten(segments: &[oxideav_core::Segment], color: [u8; 4]) -> Vec<Opened> {
    open(flatten_segments(segments, RunStyle::default_with(color)))
}

/// The lines that the original wraps those runs to: the pieces of each, and its columns, which are
/// its width where a cell has one.
pub fn wrap(
    segments: &[oxideav_core::Segment],
    color: [u8; 4],
    max_cols: usize,
) -> Vec<(Vec<Opened>, u32)> {
    flatten_and_wrap(segments, color, max_cols)
        .into_iter()
        .map(|line| {
            let columns = measure_line(&line, 1);
            (open(line.pieces), columns)
        })
        .collect()
}

/// How many they are, with nothing done to them after wrapping.
pub fn count_lines(
    segments: &[oxideav_core::Segment],
    color: [u8; 4],
    max_cols: usize,
) -> usize {
    flatten_and_wrap(segments, color, max_cols).len()
}

/// A compositor that is told these settings, but for those that the original has not.
pub fn told(settings: &crate::settings::Settings) -> Compositor {
    let mut compositor = Compositor::new(settings.width, settings.height);
    compositor.default_color = settings.default_color;
    compositor.outline_color = settings.outline_color;
    compositor.line_height_px = settings.line_height;
    compositor.bottom_margin_px = settings.bottom_margin;
    compositor.outline_px = settings.outline;
    compositor
}

/// Counts the strokes that the draw loop comes to, and draws those of a window. Where it comes to a
/// letter without ink, that is no stroke (document 02, S-6).
struct Strokes {
    window: std::ops::Range<usize>,
    met: std::cell::Cell<usize>,
}

impl Strokes {
    fn draw(
        &self,
        font: &BitmapFont,
        ch: char,
        dst: &mut [u8],
        width: u32,
        height: u32,
        x: i32,
        y: i32,
        color: [u8; 4],
        shear: f32,
    ) {
        if !font.has_ink(ch) {
            return;
        }
        let number = self.met.get();
        self.met.set(number + 1);
        if self.window.contains(&number) {
            font.draw_glyph_sheared(ch, dst, width, height, x, y, color, shear);
        }
    }
}

/// Draws those strokes of a cue whose numbers, from 0 in the original's order, lie in the window,
/// over what the buffer holds. Answers how many strokes the cue has. The loop with the counter, which
/// the build makes of the original's, stands below.
pub fn draw_strokes(
    compositor: &Compositor,
    cue: &SubtitleCue,
    dst: &mut [u8],
    window: std::ops::Range<usize>,
) -> usize {
    let strokes = Strokes {
        window,
        met: Default::default(),
    };
    let said = cue.positioning.as_ref();
    let align = said.map_or(TextAlign::Center, |said| said.align);
    compositor.counted_bitmap(&strokes, cue, dst, align);
    strokes.met.get()
}

fn flatten_and_wrap(
    segments: &[oxideav_core::Segment],
    color: [u8; 4],
    max_cols: usize,
) -> Vec<Line> {
    let runs = flatten_segments(segments, RunStyle::default_with(color));
    wrap_runs(&runs, max_cols)
}

fn open(runs: Vec<Run>) -> Vec<Opened> {
    runs.into_iter()
        .map(|run| {
            let style = run.style;
            (run.text, style.bold, style.italic, style.color)
        })
        .collect()
}

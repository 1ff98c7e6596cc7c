//! The stripes that a frame is drawn in, and in words why they do not fit it.

use crate::options::Options;
use captions::{Result, STRIPES_MAX, Stripes};

/// The stripes that the options ask for; none where the frame is drawn whole.
pub fn asked(options: &Options) -> Option<Result<Stripes>> {
    let height = options.settings.height;
    if let Some(ends) = &options.stripe_ends {
        return Some(Stripes::new(height, ends));
    }
    let rows = options.stripes?;
    Some(Stripes::of_height(height, rows))
}

/// Why those that are asked for do not fit.
pub fn unfit(options: &Options) -> String {
    let height = options.settings.height;
    match (&options.stripe_ends, options.stripes) {
        (Some(ends), _) => format!("--stripe-ends {}", unfit_ends(ends, height)),
        (None, rows) => unfit_height(rows.unwrap_or_default(), height),
    }
}

fn unfit_height(rows: u32, height: u32) -> String {
    if rows == 0 {
        return "--stripes is 0, and a stripe has a row at least".to_string();
    }
    let stripes = height.div_ceil(rows);
    let least = height.div_ceil(STRIPES_MAX);
    format!(
        "--stripes {rows} cuts {height} rows into {stripes} stripes, and {STRIPES_MAX} are the \
         most: take {least} or more"
    )
}

fn unfit_ends(ends: &[u32], height: u32) -> String {
    let count = ends.len();
    if count > STRIPES_MAX as usize {
        return format!("has {count} ends, and {STRIPES_MAX} are the most");
    }
    let (Some(first), Some(last)) = (ends.first(), ends.last()) else {
        return format!("is empty, and the last end is the height, {height}");
    };
    if height == 0 {
        return format!("has an end, {first}, and a frame without rows has no stripe");
    }
    if *first == 0 {
        return "begins with 0, and a stripe has a row at least".to_string();
    }
    match ends.windows(2).find(|pair| pair[1] <= pair[0]) {
        Some(pair) => format!(
            "has {} behind {}, and each end is past the one before it",
            pair[1], pair[0]
        ),
        None => format!("ends with {last}, and the last end is the height, {height}"),
    }
}

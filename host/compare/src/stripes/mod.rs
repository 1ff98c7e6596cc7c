//! Unequal stripes (document 02, S-4): jobs whose stripes have any ends, Works on records that no Open
//! gave, the entries that are not used, and stripes of one height as the old rule had them.

mod cases;
mod equal;
pub mod generate;
mod jobs;
mod kinds;
mod records;
mod unused;

use crate::count::Count;
use crate::random::Random;
use reference::Original;

/// From so many jobs on each kind of case has to arise.
const ENOUGH: u64 = 20_000;

/// All comparisons of unequal stripes, with this many random jobs, half as many Works on any record, and
/// a tenth as many cases of unused entries.
pub fn compare(original: &Original, seed: u64, jobs: u64) -> Vec<Count> {
    vec![
        cases::compare(original),
        equal::makers(seed),
        equal::compare(original),
        jobs::compare(original, seed, jobs),
        records::compare(original, seed, jobs),
        unused::compare(original, seed, jobs),
    ]
}

/// Counts so many random cases, whose numbers `apart` sets apart from others of the same seed.
fn each(
    count: &mut Count,
    seed: u64,
    apart: u64,
    cases: u64,
    mut case: impl FnMut(&mut Random) -> Result<(), String>,
) {
    for number in 0..cases {
        let found = case(&mut Random::new(seed ^ apart, number));
        count.check(found.map_err(|found| format!("seed {seed}, case {number}: {found}")));
    }
}

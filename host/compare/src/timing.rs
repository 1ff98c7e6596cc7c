//! How long a proved call takes, beside the original's.

use std::hint::black_box;
use std::time::{Duration, Instant};

/// Runs of each, in turn, of which the best counts, and calls in a run.
const RUNS: u32 = 100;
const CALLS: u32 = 20;
/// How long calls in turn go on.
const SPAN: Duration = Duration::from_secs(2);

/// A line of a table: how long each call takes, and the first over the second.
pub fn line<T, U>(
    name: &str,
    mut ours: impl FnMut() -> T,
    mut theirs: impl FnMut() -> U,
) -> String {
    let (mut our_best, mut their_best) = (Duration::MAX, Duration::MAX);
    for _ in 0..RUNS {
        our_best = our_best.min(run(&mut ours));
        their_best = their_best.min(run(&mut theirs));
    }
    format!(
        "{name}: {:.2} / {:.2} µs = {:.2}\n",
        micros(our_best),
        micros(their_best),
        our_best.as_secs_f64() / their_best.as_secs_f64()
    )
}

/// The best time of each of several calls, which are numbered from 0 and made in turn.
pub fn in_turn<const N: usize>(mut call: impl FnMut(usize)) -> [Duration; N] {
    let mut best = [Duration::MAX; N];
    let begin = Instant::now();
    while begin.elapsed() < SPAN {
        for (number, best) in best.iter_mut().enumerate() {
            let start = Instant::now();
            call(number);
            *best = start.elapsed().min(*best);
        }
    }
    best
}

pub fn micros(time: Duration) -> f64 {
    time.as_secs_f64() * 1e6
}

/// The time of one call in a run.
fn run<T>(call: &mut impl FnMut() -> T) -> Duration {
    let start = Instant::now();
    for _ in 0..CALLS {
        black_box(call());
    }
    start.elapsed() / CALLS
}

//! What the random cases met, and that nothing was missed.

use crate::count::Count;
use crate::work::record::{Ends, Stripes};
use std::collections::BTreeMap;

/// Kinds that a case may be of, and whether it is.
pub type Facts<const N: usize> = [(&'static str, bool); N];

/// How many cases of each kind there were.
#[derive(Default)]
pub struct Kinds {
    cases: u64,
    met: BTreeMap<&'static str, u64>,
}

impl Kinds {
    pub fn add(&mut self, facts: impl IntoIterator<Item = (&'static str, bool)>) {
        self.cases += 1;
        for (kind, is) in facts {
            *self.met.entry(kind).or_insert(0) += u64::from(is);
        }
    }

    /// Shows how many there were; where the cases are enough, a kind that never arose is a failure.
    pub fn settle(&self, name: &str, enough: bool, count: &mut Count) {
        println!("{name}: {}, among them {:?}", self.cases, self.met);
        let met = self.met.iter().map(|(kind, cases)| (*kind, *cases));
        all_met(name, enough, met, count);
    }
}

/// Counts a check for each kind, where the cases are enough: that it arose.
pub fn all_met(
    name: &str,
    enough: bool,
    met: impl Iterator<Item = (&'static str, u64)>,
    count: &mut Count,
) {
    if !enough {
        return;
    }
    for (kind, cases) in met {
        let arose = cases > 0;
        count.check(arose.then_some(()).ok_or(format!("{name}: never {kind}")));
    }
}

/// Which way the rule is broken for a picture of this height, where `broken` says that it is: by the ends,
/// each way alone, and by the count.
pub fn ways(
    ends: &impl Ends,
    height: u32,
    broken: bool,
) -> impl Iterator<Item = (&'static str, bool)> {
    let ways = by_ends(ends, height)
        .into_iter()
        .chain(by_count(ends, height));
    ways.map(move |(way, is)| (way, broken && is))
}

fn by_ends(ends: &impl Ends, height: u32) -> Facts<7> {
    let used = ends.used().unwrap_or_default();
    let pair = |test: fn(&u32, &u32) -> bool| used.windows(2).any(|pair| test(&pair[0], &pair[1]));
    let last = used.last().copied().unwrap_or(height);
    let faults = [
        used.first() == Some(&0),
        pair(|end, next| end == next),
        pair(|end, next| end > next),
        last < height,
        last > height,
    ];
    let alone = |fault: usize| {
        let others = faults.iter().filter(|is| **is).count() - usize::from(faults[fault]);
        height > 0 && faults[fault] && others == 0
    };
    [
        ("a first end of 0", alone(0)),
        ("equal ends", alone(1)),
        ("falling ends", alone(2)),
        ("a last end under the height", alone(3)),
        ("a last end over the height", alone(4)),
        ("an end of 0 at height 0", height == 0 && used == [0]),
        ("ends at height 0", height == 0 && last > 0),
    ]
}

fn by_count(ends: &impl Ends, height: u32) -> Facts<7> {
    let (count, entries) = ends.handed();
    // Whether the same entries keep the rule with another count.
    let right = |count| {
        let ends = *entries;
        Stripes { count, ends }.keep_rule(height)
    };
    let low = |bits: u32| count > 64 && count >> bits > 0 && right(count % (1 << bits));
    [
        ("no ends, whatever the entries", count == 0 && height > 0),
        ("count 65, entries right", count == 65 && right(64)),
        ("count over 65, entries right", count > 65 && right(64)),
        ("a right count in the low byte", low(8)),
        ("a right count in the low half", low(16)),
        ("count one short", right(count.saturating_add(1))),
        (
            "count one more",
            count > 0 && right(count.saturating_sub(1)),
        ),
    ]
}

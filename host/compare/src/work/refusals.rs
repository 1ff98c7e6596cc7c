//! Calls of Open and Work with several things wrong at once: which of them is said, and that nothing
//! is done.

use crate::count::Count;
use crate::draw::cases::translucent;
use crate::draw::frame::Frame;
use crate::draw::refusals::{BREAKS, Break};
use crate::refusal::Refusal;
use crate::tape::ROOM;
use crate::tape::limits::stopped;
use crate::work::call::{Ask, Call};
use crate::work::due;
use crate::work::record::{Record, Stripes, ZEROS, ending, equal};
use reference::Original;

/// The rows of the picture.
const HEIGHT: u32 = 130;
/// How many stripes are spoken of where there may be none so.
const ELSEWHERE: u32 = 44;
/// The tape that is not stopped: a letter and one without ink, and their strokes with outline 1.
const GOOD: [u8; 4] = [0x02, 0x41, 0x02, 0xad];
const STROKES: u32 = 9;

/// What may be wrong with a call besides its stripes and its record.
struct Base {
    tape: Vec<u8>,
    fault: Option<Refusal>,
    broken: Option<Break>,
    short: bool,
    room: usize,
}

/// Every choice of things that are wrong, with each tape that is stopped and one that is not.
pub fn each(original: &Original) -> Count {
    let mut count = Count::new("refusals of Open and Work");
    for base in bases() {
        for (stripes, broken) in stripes() {
            let record = Record { count: 7, ..ZEROS };
            let due = base.first(broken, None);
            let ask = Ask::Open { stripes };
            base.check(original, &mut count, ask, record, due);
            base.works(original, &mut count, &stripes, broken);
        }
    }
    count
}

/// Stripes of one height and others, and whether they break the rule.
fn stripes() -> [(Stripes, bool); 6] {
    let thin: Vec<u32> = (100..=HEIGHT).collect();
    [
        (equal(HEIGHT, 0), true),
        (equal(HEIGHT, 2), true),
        (equal(HEIGHT, 3), false),
        (equal(HEIGHT, u32::MAX), false),
        (ending(&thin), false),
        (ending(&[100, 99, HEIGHT]), true),
    ]
}

fn bases() -> Vec<Base> {
    let mut tapes = vec![(GOOD.to_vec(), None)];
    for (tape, number, place) in stopped() {
        tapes.push((tape, Some(Refusal { number, place })));
    }
    let mut bases = Vec::new();
    for (tape, fault) in tapes {
        for broken in broken() {
            for (short, room) in [(false, ROOM), (false, ROOM - 1), (true, ROOM), (true, 0)] {
                bases.push(Base {
                    tape: tape.clone(),
                    fault,
                    broken,
                    short,
                    room,
                });
            }
        }
    }
    bases
}

/// Nothing out of its range, or one setting of a kind; of the house settings each, just and far.
fn broken() -> impl Iterator<Item = Option<Break>> {
    let some = [4, 10, 14, 18, 21, 22, 25, 26, 29];
    [None].into_iter().chain(some.map(|at| Some(BREAKS[at])))
}

impl Base {
    fn works(&self, original: &Original, count: &mut Count, stripes: &Stripes, broken: bool) {
        let there = if broken { ELSEWHERE } else { stripes.count };
        for (record, unsound) in records(stripes, there) {
            for stripe in [0, there - 1, there, 64, u32::MAX] {
                let last = [(14, unsound), (12, stripe >= there)];
                let due = self.first(broken, wrong(&last));
                let ask = Ask::Work { stripe, budget: 4 };
                self.check(original, count, ask, record, due);
            }
        }
    }

    /// The refusal that goes before the others, where the stripes are wrong or not, and where this
    /// one, if any, goes behind the tape's.
    fn first(&self, stripes: bool, last: Option<Refusal>) -> Option<Refusal> {
        let long = self.fault.is_some_and(|fault| fault.number == 10);
        let before_tape = [
            (8, self.broken.is_some()),
            (9, self.short),
            (10, long),
            (11, self.room < ROOM),
            (13, stripes),
        ];
        wrong(&before_tape).or(self.fault).or(last)
    }

    fn check(
        &self,
        original: &Original,
        count: &mut Count,
        ask: Ask,
        record: Record,
        due: Option<Refusal>,
    ) {
        let mut settings = translucent(3, HEIGHT);
        let bytes = vec![0xa5; settings.area() - usize::from(self.short)];
        if let Some(spoil) = self.broken {
            spoil(&mut settings);
        }
        let call = Call {
            frame: Frame {
                settings,
                tape: self.tape.clone(),
                room: self.room,
                bytes,
            },
            record,
            ask,
        };
        count.check(match due {
            Some(refusal) => call.hold(&Err(refusal)),
            None => call.hold(&due::of_call(original, &call)),
        });
    }
}

/// The first number whose thing is wrong.
fn wrong(numbers: &[(u32, bool)]) -> Option<Refusal> {
    let (number, _) = *numbers.iter().find(|(_, wrong)| *wrong)?;
    Some(Refusal { number, place: 0 })
}

/// Records of these stripes, taken to be so many, and whether a counter is over the good tape's
/// strokes, or not 0 past the last stripe.
fn records(stripes: &Stripes, there: u32) -> [(Record, bool); 7] {
    let last = there - 1;
    let with = |counters: &[(u32, u32)]| {
        let mut record = Record {
            count: stripes.count,
            ends: stripes.ends,
            ..ZEROS
        };
        for &(stripe, counter) in counters {
            record.counters[stripe as usize] = counter;
        }
        record
    };
    [
        (with(&[]), false),
        (with(&[(0, STROKES), (last, STROKES)]), false),
        (with(&[(0, STROKES + 1)]), true),
        (with(&[(last, u32::MAX)]), true),
        (with(&[(there, 1)]), true),
        (with(&[(63, STROKES)]), true),
        (with(&[(0, u32::MAX), (63, u32::MAX)]), true),
    ]
}

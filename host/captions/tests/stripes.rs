//! Stripes by their ends, document 02's S-4: which are refused, and which rows each has.

mod common;

use captions::raw::{self, Buffers};
use captions::{
    Cause, Job, OLD_RECORD_BYTES, Record, Refusal, Result, STRIPES_MAX, Settings, Stripes,
    WORKSPACE_BYTES, Workspace, draw,
};
use common::{PAINT, Random, painted, plain, raw_plain, record, record_of, rising_ends, tape};

const AFTER: usize = 8;
const WIDTH: u32 = 40;
const HEIGHT: u32 = 41;

/// Two lines, translucent, with an outline: the order of strokes shows. 9 strokes a letter.
fn cue(height: u32) -> (Settings, Vec<u8>, u32) {
    let settings = Settings {
        outline_px: 1,
        default_color: [90, 200, 10, 140],
        outline_color: [200, 30, 60, 90],
        ..plain(WIDTH, height)
    };
    (settings, tape("gj\nQy,"), 5 * 9)
}

/// The settings of `cue` as the library takes them.
fn raw_settings(height: u32) -> raw::Settings {
    raw::Settings {
        default_color: 0x5AC8_0A8C,
        outline_color: 0xC81E_3C5A,
        outline: 1,
        ..raw_plain(WIDTH, height)
    }
}

fn drawn(height: u32) -> Vec<u8> {
    let (settings, tape, total) = cue(height);
    let mut picture = painted(&settings, AFTER);
    let strokes = draw(&settings, &tape, &mut Workspace::new(), &mut picture);
    assert_eq!(strokes, Ok(total));
    picture
}

/// Stripes with these ends; the entries that are not used hold one number.
fn with_unused(ends: &[u32], unused: u32) -> raw::Stripes {
    let mut stripes = raw::Stripes {
        count: ends.len() as u32,
        ends: [unused; 64],
    };
    stripes.ends[..ends.len()].copy_from_slice(ends);
    stripes
}

const UNFIT: Refusal = Refusal {
    cause: Cause::StripesUnfit,
    place: 0,
};

/// What a call on a picture of a height is given, and what it leaves.
struct Call<'a> {
    height: u32,
    tape: &'a [u8],
    room: usize,
    picture: Vec<u8>,
    record: Record,
}

/// What a record holds before Open writes it: no number that it may keep.
const ANY: Record = Record {
    count: 0xA5A5,
    ends: [0xA5A5; 64],
    counters: [0xA5A5; 64],
};

impl Call<'_> {
    fn new(height: u32, tape: &[u8]) -> Call<'_> {
        Call {
            height,
            tape,
            room: WORKSPACE_BYTES,
            picture: vec![PAINT; (WIDTH * height * 4) as usize + AFTER],
            record: ANY,
        }
    }

    /// The call's answer, which must leave picture and workspace where it has to.
    fn answer(&mut self, call: impl Fn(&raw::Settings, Buffers, &mut Record) -> u64) -> u64 {
        let before = self.picture.clone();
        let mut workspace = vec![PAINT; self.room];
        let buffers = Buffers {
            tape: self.tape,
            workspace: &mut workspace,
            picture: &mut self.picture,
        };
        let answer = call(&raw_settings(self.height), buffers, &mut self.record);
        let number = answer >> 32;
        assert!(number == 0 || self.picture == before);
        let kept = matches!(number, 8..=11 | 13);
        assert!(!kept || workspace.iter().all(|&byte| byte == PAINT));
        answer
    }

    fn open(&mut self, stripes: &raw::Stripes) -> u64 {
        let answer =
            self.answer(|settings, buffers, record| raw::open(settings, buffers, stripes, record));
        if answer >> 32 != 0 {
            assert_eq!(self.record, Record::ZEROS);
        }
        answer
    }

    fn work(&mut self, stripe: u32, budget: u32) -> u64 {
        let before = self.record;
        let answer = self.answer(|settings, buffers, record| {
            raw::work(settings, buffers, record, stripe, budget)
        });
        if answer >> 32 != 0 {
            assert_eq!(self.record, before);
        }
        answer
    }
}

/// The numbers of the refusals of Open and Work, where the stripes are Open's or the record's.
fn numbers(height: u32, tape: &[u8], room: usize, stripes: raw::Stripes) -> [u64; 2] {
    let mut call = Call::new(height, tape);
    call.room = room;
    let opened = call.open(&stripes) >> 32;
    call.record = record_of(stripes);
    [opened, call.work(0, 1) >> 32]
}

/// Held to 13 at Open and at Work, after 11 and before the tape's faults and 14; and by the wrapper.
#[track_caller]
fn unfit(height: u32, stripes: raw::Stripes) {
    let (settings, tape, _) = cue(height);
    assert_eq!(numbers(height, &tape, WORKSPACE_BYTES, stripes), [13; 2]);
    assert_eq!(numbers(height, &[12], WORKSPACE_BYTES, stripes), [13; 2]);
    assert_eq!(
        numbers(height, &[12], WORKSPACE_BYTES - 1, stripes),
        [11; 2]
    );
    let counted = Record {
        counters: [u32::MAX; 64],
        ..record_of(stripes)
    };
    let mut call = Call::new(height, &tape);
    call.record = counted;
    assert_eq!(call.work(u32::MAX, 1), 13 << 32);
    let (workspace, picture) = (&mut Workspace::new(), &mut call.picture);
    let resumed = Job::resume(&settings, &tape, workspace, picture, &counted);
    assert_eq!(resumed.map(|job| job.total()), Err(UNFIT));
}

/// The same of ends, whatever stands in the entries that are not used.
#[track_caller]
fn unfit_ends(height: u32, ends: &[u32]) {
    assert_eq!(Stripes::new(height, ends), Err(UNFIT), "{height}: {ends:?}");
    for unused in [0, 1, height, height + 1, u32::MAX] {
        unfit(height, with_unused(ends, unused));
    }
}

/// Held to be accepted at Open and at Work, and by the wrapper.
#[track_caller]
fn fit_ends(height: u32, ends: &[u32]) {
    let (_, tape, total) = cue(height);
    let stripes = Stripes::new(height, ends).expect("they fit");
    assert_eq!(stripes.ends(), ends);
    assert_eq!(stripes.count() as usize, ends.len());
    let mut call = Call::new(height, &tape);
    assert_eq!(call.open(&with_unused(ends, 0)), u64::from(total));
    assert_eq!(call.record, Record::new(&stripes));
    let last = stripes.count() - 1;
    assert_eq!(call.work(last, total + 1), u64::from(total));
    assert_eq!(call.work(last + 1, 1), 12 << 32);
}

#[test]
fn ends_that_rise_to_the_height_fit() {
    for ends in [
        &[41][..],
        &[1, 41],
        &[40, 41],
        &[1, 2, 41],
        &[20, 30, 33, 41],
    ] {
        fit_ends(HEIGHT, ends);
    }
    fit_ends(1, &[1]);
    fit_ends(4096, &[4096]);
    fit_ends(4096, &[1, 4095, 4096]);
}

#[test]
fn number_13_each_way_to_break_the_rule() {
    let broken: [&[u32]; 14] = [
        &[],
        &[0],
        &[40],
        &[42],
        &[u32::MAX],
        &[0, 41],
        &[41, 41],
        &[20, 20, 41],
        &[20, 19, 41],
        &[20, 40],
        &[20, 42],
        &[42, 41],
        &[20, u32::MAX, 41],
        &[20, 41, 0],
    ];
    for ends in broken {
        unfit_ends(HEIGHT, ends);
    }
    unfit_ends(1, &[]);
    unfit_ends(1, &[1, 1]);
    unfit_ends(4096, &[4095]);
}

/// Only at one place of 64 is an end not past the one before it.
#[test]
fn number_13_one_end_of_64() {
    let ends: Vec<u32> = (1..=64).map(|k| 2 * k).collect();
    fit_ends(128, &ends);
    let (_, tape, _) = cue(128);
    let unfit_with = |at: usize, end| {
        let mut broken = ends.clone();
        broken[at] = end;
        assert_eq!(Stripes::new(128, &broken), Err(UNFIT));
        let stripes = with_unused(&broken, 0);
        assert_eq!(numbers(128, &tape, WORKSPACE_BYTES, stripes), [13; 2]);
    };
    for at in 1..64 {
        for lowered in [ends[at - 1], ends[at - 1] - 1, 0] {
            unfit_with(at, lowered);
        }
        for raised in [ends[at], ends[at] + 1, u32::MAX] {
            unfit_with(at - 1, raised);
        }
    }
}

#[test]
fn number_13_more_than_64_stripes() {
    let all: Vec<u32> = (1..=65).collect();
    fit_ends(64, &all[..64]);
    assert_eq!(Stripes::new(65, &all), Err(UNFIT));
    assert_eq!(Stripes::new(64, &[&all[..64], &[64]].concat()), Err(UNFIT));
    // Their entries would fit, and are not read.
    for count in [65, 66, 128, 1 << 16, 1 << 31, u32::MAX] {
        let mut stripes = with_unused(&all[..64], 0);
        stripes.count = count;
        unfit(64, stripes);
        for entry in [0, 1, 64, u32::MAX] {
            stripes.ends = [entry; 64];
            unfit(64, stripes);
        }
    }
    // The lower half of the count alone would fit.
    let mut stripes = with_unused(&[HEIGHT], 0);
    for count in [1 + (1 << 8), 1 + (1 << 16), 1 + (1 << 31)] {
        stripes.count = count;
        unfit(HEIGHT, stripes);
    }
}

/// Stripes, and what stands behind them.
#[repr(C)]
struct Beside {
    stripes: raw::Stripes,
    next: u32,
}

/// What stands behind the entries, in a record the first counter, is not taken for one more, though
/// it would fit.
#[test]
fn number_13_what_stands_behind_64_ends() {
    let (_, tape, _) = cue(65);
    let mut beside = Beside {
        stripes: raw::Stripes::of_height(65, 1),
        next: 65,
    };
    for next in [0, 64, 65] {
        beside.next = next;
        let mut call = Call::new(65, &tape);
        assert_eq!(call.open(&beside.stripes), 13 << 32);
        call.record = record_of(beside.stripes);
        call.record.counters[0] = next;
        assert_eq!(call.work(0, 1), 13 << 32);
    }
    // Where 64 entries are enough, neither is it.
    let (_, tape, total) = cue(64);
    beside.stripes = raw::Stripes::of_height(64, 1);
    let mut call = Call::new(64, &tape);
    assert_eq!(call.open(&beside.stripes), u64::from(total));
    call.record.counters[0] = 1;
    assert_eq!(call.work(63, 1), 1);
}

#[test]
fn a_picture_without_rows_has_no_stripe() {
    let (settings, tape, total) = cue(0);
    let none = Stripes::new(0, &[]).expect("they fit");
    assert_eq!((none.count(), none.rows(0)), (0, None));
    assert!(none.ends().is_empty());
    assert_eq!(Record::new(&none), Record::ZEROS);
    let mut call = Call::new(0, &tape);
    for unused in [0, 1, u32::MAX] {
        assert_eq!(call.open(&with_unused(&[], unused)), u64::from(total));
        assert_eq!(call.record, Record::ZEROS);
    }
    // A refused Open gives that record too, so that a Work with it is refused 12, or 14.
    call.tape = &[12];
    assert_eq!(call.open(&with_unused(&[], 0)), 1 << 32);
    call.tape = &tape;
    for stripe in [0, 1, 63, 64, u32::MAX] {
        assert_eq!(call.work(stripe, 1), 12 << 32);
    }
    call.record.counters[63] = 1;
    assert_eq!(call.work(0, 1), 14 << 32);
    for ends in [&[0][..], &[1], &[0, 0], &[0, 1], &[u32::MAX]] {
        unfit_ends(0, ends);
    }
    let workspace = &mut Workspace::new();
    let job = Job::open(&settings, &tape, workspace, &mut [], &none).expect("it is admitted");
    assert_eq!((job.stripes(), job.rows(0), job.total()), (0, None, total));
}

/// At every other height the record of zeros is refused 13.
#[test]
fn the_record_of_a_refused_open() {
    let (_, tape, _) = cue(HEIGHT);
    let mut call = Call::new(HEIGHT, &[12]);
    assert_eq!(call.open(&with_unused(&[HEIGHT], 0)), 1 << 32);
    call.tape = &tape;
    assert_eq!(call.open(&with_unused(&[HEIGHT + 1], 0)), 13 << 32);
    assert_eq!(call.work(0, 1), 13 << 32);
}

const JUNK: [u32; 6] = [1, 7, 40, HEIGHT, 42, u32::MAX];

#[test]
fn entries_that_are_not_used_are_zeros_in_an_opened_record() {
    let (_, tape, total) = cue(HEIGHT);
    for ends in [&[HEIGHT][..], &[30, 34, HEIGHT]] {
        for unused in JUNK {
            let mut call = Call::new(HEIGHT, &tape);
            assert_eq!(call.open(&with_unused(ends, unused)), u64::from(total));
            assert_eq!(call.record, record_of(with_unused(ends, 0)));
        }
    }
}

#[test]
fn entries_that_are_not_used_stay_as_they_are_in_a_work() {
    let (_, tape, _) = cue(HEIGHT);
    let ends = [30, 34, HEIGHT];
    for unused in JUNK {
        let [mut clear, mut junk] = [0, unused].map(|unused| {
            let mut call = Call::new(HEIGHT, &tape);
            call.open(&with_unused(&ends, 0));
            call.record.ends = with_unused(&ends, unused).ends;
            call
        });
        for (stripe, budget) in [(1, 5), (2, 40), (2, 40), (0, 3), (3, 1), (1, 0), (9, 9)] {
            assert_eq!(junk.work(stripe, budget), clear.work(stripe, budget));
            assert!(junk.picture == clear.picture);
            assert_eq!(junk.record.counters, clear.record.counters);
            assert_eq!(junk.record.ends, with_unused(&ends, unused).ends);
            assert_eq!(junk.record.count, 3);
        }
        assert_eq!(junk.record.counters[..4], [3, 5, 45, 0]);
        junk.record.counters[0] = 46;
        assert_eq!(junk.work(1, 1), 14 << 32);
    }
}

#[test]
fn numbers_12_and_14_go_by_the_count() {
    let (_, tape, total) = cue(HEIGHT);
    for count in [1, 2, 41] {
        let ends: Vec<u32> = (HEIGHT - count + 1..=HEIGHT).collect();
        let mut call = Call::new(HEIGHT, &tape);
        for counter in 0..64 {
            call.record = record_of(with_unused(&ends, HEIGHT));
            let is_there = counter < count;
            let due = if is_there { 0 } else { 12 };
            assert_eq!(call.work(counter, 0) >> 32, due);
            call.record.counters[counter as usize] = if is_there { total } else { 0 };
            assert_eq!(call.work(0, 0), 0);
            call.record.counters[counter as usize] += 1;
            // 14 comes before 12, and whichever stripe is asked for.
            for stripe in [0, count - 1, count, u32::MAX] {
                assert_eq!(call.work(stripe, 1), 14 << 32);
            }
        }
        for stripe in [count, 64, 65, 1 << 8, 1 << 16, 1 << 31, u32::MAX] {
            call.record = record_of(with_unused(&ends, HEIGHT));
            assert_eq!(call.work(stripe, 1), 12 << 32);
        }
    }
}

/// The rows of each stripe, worked on alone, are Draw's, and all others stay clear.
#[track_caller]
fn painted_alone(height: u32, ends: &[u32]) {
    let (settings, tape, total) = cue(height);
    let (whole, row) = (drawn(height), WIDTH as usize * 4);
    let stripes = Stripes::new(height, ends).expect("they fit");
    for stripe in 0..stripes.count() {
        let mut picture = painted(&settings, AFTER);
        let workspace = &mut Workspace::new();
        let mut job = Job::open(&settings, &tape, workspace, &mut picture, &stripes).unwrap();
        assert_eq!(job.work(workspace, stripe, u32::MAX), Ok(total));
        let rows = job.rows(stripe).expect("it is there");
        for y in 0..height {
            let at = y as usize * row;
            // The stripe of a row is the first whose end is past it.
            let of = ends.iter().position(|end| y < *end);
            let is_its = of == Some(stripe as usize);
            assert_eq!(rows.contains(&y), is_its);
            let due = if is_its {
                &whole[at..at + row]
            } else {
                &[0; WIDTH as usize * 4]
            };
            assert!(
                picture[at..at + row] == *due,
                "row {y}, stripe {stripe} of {ends:?}"
            );
        }
        assert_eq!(picture[height as usize * row..], [PAINT; AFTER]);
    }
}

#[test]
fn thin_stripes_below_a_tall_one() {
    painted_alone(HEIGHT, &[28, 29, 31, 34, 35, HEIGHT]);
    painted_alone(HEIGHT, &[1, 2, 3, HEIGHT]);
    painted_alone(HEIGHT, &[HEIGHT]);
}

#[test]
fn sixty_four_stripes_of_which_one_is_tall() {
    let thin: Vec<u32> = (38..=101).collect();
    for tall in [0, 30, 63] {
        // The stripe of this number is 38 rows high, and the others 1.
        let ends = thin.iter().zip(0..);
        let ends: Vec<u32> = ends
            .map(|(end, k)| if k < tall { end - 37 } else { *end })
            .collect();
        assert_eq!(ends.len(), 64);
        painted_alone(101, &ends);
    }
}

/// What any calls leave is what one stripe, stopped there, has in the same rows.
#[test]
fn random_ends_beside_a_job_of_one_stripe() {
    let (settings, tape, total) = cue(HEIGHT);
    let row = WIDTH as usize * 4;
    for seed in 0..60 {
        let random = &mut Random(seed);
        let stripes = Stripes::new(HEIGHT, &rising_ends(random, HEIGHT)).expect("they fit");
        let (workspace, mut picture) = (&mut Workspace::new(), painted(&settings, AFTER));
        let mut job = Job::open(&settings, &tape, workspace, &mut picture, &stripes).unwrap();
        for _ in 0..random.under(80) {
            let (stripe, budget) = (random.under(stripes.count()), random.under(20));
            let left = total - job.done(stripe);
            assert_eq!(job.work(workspace, stripe, budget), Ok(budget.min(left)));
        }
        for stripe in 0..stripes.count() {
            let one = stopped_after(job.done(stripe));
            let rows = stripes.rows(stripe).expect("it is there");
            let bytes = rows.start as usize * row..rows.end as usize * row;
            assert!(job.picture()[bytes.clone()] == one[bytes], "seed {seed}");
        }
        for stripe in 0..stripes.count() {
            job.work(workspace, stripe, u32::MAX)
                .expect("it is admitted");
        }
        assert!(job.picture() == drawn(HEIGHT), "seed {seed}");
    }
}

/// The picture of a job in one stripe after so many strokes.
fn stopped_after(strokes: u32) -> Vec<u8> {
    let (settings, tape, _) = cue(HEIGHT);
    let (workspace, mut picture) = (&mut Workspace::new(), painted(&settings, AFTER));
    let one = Stripes::new(HEIGHT, &[HEIGHT]).expect("it fits");
    let mut job = Job::open(&settings, &tape, workspace, &mut picture, &one).unwrap();
    assert_eq!(job.work(workspace, 0, strokes), Ok(strokes));
    picture
}

/// The rule that there was for a stripe height: it is not 0, and stripe 64 would begin past the rows.
fn was_refused(height: u32, stripe_height: u32) -> bool {
    stripe_height == 0 || 64 * u64::from(stripe_height) < u64::from(height)
}

/// Held to that rule, and to row y being in stripe y / h.
#[track_caller]
fn equal_as_before(height: u32, stripe_height: u32) {
    let made = Stripes::of_height(height, stripe_height);
    let told = format!("{height} rows in stripes of {stripe_height}");
    assert_eq!(made.is_err(), was_refused(height, stripe_height), "{told}");
    let raw = raw::Stripes::of_height(height, stripe_height);
    let Ok(made) = made else {
        assert_eq!(made, Err(UNFIT), "{told}");
        let (_, tape, _) = cue(height);
        assert_eq!(
            numbers(height, &tape, WORKSPACE_BYTES, raw),
            [13; 2],
            "{told}"
        );
        return;
    };
    let stripes: Vec<u32> = (0..height).map(|row| row / stripe_height).collect();
    let lasts = (0..stripes.len()).filter(|&row| stripes.get(row + 1) != Some(&stripes[row]));
    let ends: Vec<u32> = lasts.map(|row| row as u32 + 1).collect();
    assert_eq!(made.ends(), ends, "{told}");
    assert_eq!(raw, with_unused(&ends, 0), "{told}");
    for row in 0..height {
        let rows = made.rows(row / stripe_height).expect("it is there");
        assert!(rows.contains(&row), "{told}");
    }
}

const LARGE: [u32; 8] = [
    1 << 16,
    (1 << 26) - 1,
    1 << 26,
    (1 << 26) + 1,
    (1 << 31) - 1,
    1 << 31,
    u32::MAX - 1,
    u32::MAX,
];

#[test]
fn stripes_of_one_height_are_as_before() {
    for height in [0, 1, 2, 3, 41, 63, 64, 65, 66, 127, 128, 129, 200] {
        for stripe_height in (0..=height + 2).chain(LARGE) {
            equal_as_before(height, stripe_height);
        }
    }
    for stripe_height in [0, 1, 63, 64, 65, 4095, 4096, 4097] {
        equal_as_before(4096, stripe_height);
    }
}

#[test]
fn stripes_of_one_height_that_do_not_fit() {
    let none = raw::Stripes::of_height(HEIGHT, 0);
    assert_eq!(none, with_unused(&[0], 0));
    for height in [0, 1, 65, 4096, u32::MAX] {
        assert_eq!(raw::Stripes::of_height(height, 0), none);
    }
    let many = raw::Stripes::of_height(4096, 3);
    assert_eq!(many.count, 1366);
    assert_eq!(many.ends, std::array::from_fn(|k| 3 * (k as u32 + 1)));
    assert_eq!(raw::Stripes::of_height(u32::MAX, 1).count, u32::MAX);
    // No product wraps.
    let [half, whole] = [1 << 31, u32::MAX];
    assert_eq!(
        raw::Stripes::of_height(whole, half),
        with_unused(&[half, whole], 0)
    );
    assert_eq!(
        raw::Stripes::of_height(half, whole),
        with_unused(&[half], 0)
    );
    assert_eq!(
        raw::Stripes::of_height(whole, whole),
        with_unused(&[whole], 0)
    );
    let third = Stripes::of_height(whole, 1 << 30).map(|made| made.ends().to_vec());
    assert_eq!(third, Ok(vec![1 << 30, 1 << 31, 3 << 30, whole]));
}

#[test]
fn rows_are_those_between_two_ends() -> Result<()> {
    let stripes = Stripes::new(360, &[300, 340, 360])?;
    let rows = [0, 1, 2, 3, 63, 64, u32::MAX].map(|stripe| stripes.rows(stripe));
    let there = [Some(0..300), Some(300..340), Some(340..360)];
    assert_eq!(rows[..3], there);
    assert!(rows[3..].iter().all(Option::is_none));
    let most = Stripes::of_height(4096, 64)?;
    assert_eq!(most.count(), STRIPES_MAX);
    assert_eq!(most.rows(63), Some(4032..4096));
    assert_eq!(most.rows(64), None);
    Ok(())
}

/// The bytes of a record as it was: the stripe height, and then the counters.
fn old_bytes(stripe_height: u32, counters: [u32; 64]) -> [u8; OLD_RECORD_BYTES] {
    let numbers = [stripe_height].into_iter().chain(counters);
    let bytes: Vec<u8> = numbers.flat_map(u32::to_be_bytes).collect();
    bytes.try_into().expect("there are 65 numbers")
}

#[test]
fn a_record_of_one_height_is_taken_over() {
    let (settings, tape, total) = cue(HEIGHT);
    let counters = std::array::from_fn(|k| if k < 6 { 7 * k as u32 } else { 0 });
    let stored = Record::from_old_bytes(&old_bytes(8, counters), HEIGHT);
    assert_eq!(
        stored,
        Record {
            counters,
            ..record(HEIGHT, 8)
        }
    );
    // The job goes on as it would have.
    let mut picture = drawn(HEIGHT);
    let workspace = &mut Workspace::new();
    let mut job = Job::resume(&settings, &tape, workspace, &mut picture, &stored).unwrap();
    assert_eq!((job.stripes(), job.total(), job.done(5)), (6, total, 35));
    assert_eq!(job.work(workspace, 5, 99), Ok(10));
    // What was refused still is: no height, too many stripes, a counter past the last.
    let mut refused = |stripe_height, counters, height| {
        let record = Record::from_old_bytes(&old_bytes(stripe_height, counters), height);
        let resumed = Job::resume(&settings, &tape, workspace, &mut picture, &record);
        resumed.map(|job| job.total()).unwrap_err().cause
    };
    assert_eq!(refused(0, [0; 64], HEIGHT), Cause::StripesUnfit);
    assert_eq!(refused(8, [0; 64], HEIGHT + 1), Cause::StripesUnfit);
    let past = std::array::from_fn(|k| u32::from(k == 6));
    assert_eq!(refused(8, past, HEIGHT), Cause::CountersUnsound);
    let many = Record::from_old_bytes(&old_bytes(1, [0; 64]), 65);
    assert_eq!(many.count, 65);
}

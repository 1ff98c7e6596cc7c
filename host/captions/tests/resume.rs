//! Jobs that are stored and resumed, and records that no job has.

mod common;

use captions::raw::{self, Buffers};
use captions::{
    Cause, Job, RECORD_BYTES, Record, Refusal, Result, Settings, WORKSPACE_BYTES, Workspace, draw,
};
use common::{PAINT, Random, equal, painted, plain, raw_plain, record, tape};

const AFTER: usize = 8;

/// Two lines that cross the stripes below, of letters with ink and an outline: 9 strokes each.
fn cue() -> (Settings, Vec<u8>, u32) {
    let settings = Settings {
        outline_px: 1,
        default_color: [90, 200, 10, 140],
        ..plain(48, 41)
    };
    (settings, tape("ab\ncde"), 5 * 9)
}

/// What a station keeps: bytes alone.
#[derive(Clone, PartialEq, Debug)]
struct Stored {
    record: [u8; RECORD_BYTES],
    picture: Vec<u8>,
}

impl Stored {
    fn of(job: &Job) -> Stored {
        Stored {
            record: job.record().to_bytes(),
            picture: job.picture().to_vec(),
        }
    }

    /// Resumes the job with nothing but what was stored, in a workspace that held other bytes, lets
    /// it be worked on, and stores it again.
    fn resumed(&self, settings: &Settings, tape: &[u8], work: impl FnOnce(&mut Job)) -> Stored {
        let workspace = &mut Workspace::new();
        let other = [tape, tape].concat();
        draw(settings, &other, workspace, &mut self.picture.clone()).expect("it is admitted");
        let mut picture = self.picture.clone();
        let record = Record::from_bytes(&self.record);
        let resumed = Job::resume(settings, tape, workspace, &mut picture, &record);
        let mut job = resumed.expect("a job has the record");
        assert_eq!(Stored::of(&job), *self); // resuming changes nothing
        work(&mut job);
        Stored::of(&job)
    }
}

fn opened(settings: &Settings, tape: &[u8], stripe_height: u32) -> Stored {
    let workspace = &mut Workspace::new();
    let mut picture = painted(settings, AFTER);
    let stripes = equal(settings, stripe_height);
    let job = Job::open(settings, tape, workspace, &mut picture, &stripes);
    Stored::of(&job.expect("it is admitted"))
}

/// A few Works on any stripes.
fn some_work(random: &mut Random, job: &mut Job) {
    for _ in 0..random.under(4) {
        let (stripe, budget) = (random.under(job.stripes()), random.under(14));
        let done = job.work(&mut Workspace::new(), stripe, budget);
        assert!(done.is_ok());
    }
}

fn finish(job: &mut Job) {
    for stripe in 0..job.stripes() {
        let left = job.total() - job.done(stripe);
        let done = job.work(&mut Workspace::new(), stripe, u32::MAX);
        assert_eq!(done, Ok(left));
    }
}

#[test]
fn a_job_interrupted_anywhere_goes_on_as_if_it_had_never_stopped() {
    let (settings, tape, total) = cue();
    let mut due = painted(&settings, AFTER);
    draw(&settings, &tape, &mut Workspace::new(), &mut due).expect("it is admitted");
    for seed in 0..60 {
        let random = &mut Random(seed);
        let stripe_height = 1 + random.under(45);
        let mut picture = painted(&settings, AFTER);
        let workspace = &mut Workspace::new();
        let stripes = equal(&settings, stripe_height);
        let mut never_stopped =
            Job::open(&settings, &tape, workspace, &mut picture, &stripes).unwrap();
        let mut stored = opened(&settings, &tape, stripe_height);
        for stop in 0..12 {
            let seed = 1000 * seed + stop;
            some_work(&mut Random(seed), &mut never_stopped);
            stored = stored.resumed(&settings, &tape, |job| {
                assert_eq!(job.total(), total);
                assert_eq!(job.stripes(), never_stopped.stripes());
                some_work(&mut Random(seed), job);
            });
            assert_eq!(stored, Stored::of(&never_stopped), "seed {seed}");
        }
        stored = stored.resumed(&settings, &tape, finish);
        assert_eq!(stored.picture, due, "seed {seed}");
        let record = Record::from_bytes(&stored.record);
        let count = stripes.count() as usize;
        assert_eq!(record.count, stripes.count());
        assert_eq!(record.ends, Record::new(&stripes).ends);
        assert!(record.counters[..count].iter().all(|&count| count == total));
        assert!(record.counters[count..].iter().all(|&count| count == 0));
    }
}

#[test]
fn a_resumed_job_knows_its_strokes() {
    let texts = ["", "x", " ", "a b\n\nc", "a long line that is cut and cut"];
    for text in texts {
        for (width, height) in [(0, 9), (1, 64), (30, 5), (200, 70), (30, 0), (0, 0)] {
            for (outline_px, outline_cap_px) in [(0, 2), (1, 2), (2, 2), (u32::MAX, 2), (9, 4)] {
                let settings = Settings {
                    outline_px,
                    outline_cap_px,
                    ..plain(width, height)
                };
                let tape = tape(text);
                let workspace = &mut Workspace::new();
                let mut picture = settings.new_picture();
                let stripes = equal(&settings, 5);
                let job = Job::open(&settings, &tape, workspace, &mut picture, &stripes).unwrap();
                let (total, record) = (job.total(), job.record());
                let job = Job::resume(&settings, &tape, workspace, &mut picture, &record);
                assert_eq!(job.map(|job| job.total()), Ok(total));
            }
        }
    }
}

#[test]
fn a_record_says_how_far_a_job_is() {
    let (settings, tape, _) = cue();
    let mut picture = settings.new_picture();
    let workspace = &mut Workspace::new();
    let stripes = equal(&settings, 8);
    let mut job = Job::open(&settings, &tape, workspace, &mut picture, &stripes).unwrap();
    assert_eq!(job.record(), record(41, 8));
    job.work(workspace, 5, 7).unwrap();
    job.work(workspace, 0, 3).unwrap();
    job.work(workspace, 5, 1).unwrap();
    let mut due = record(41, 8);
    due.counters[0] = 3;
    due.counters[5] = 8;
    assert_eq!(job.record(), due);
}

#[test]
fn a_record_s_bytes_are_numbers_with_the_high_byte_first() {
    let mut record = Record {
        count: 0x0102_0304,
        ..Record::ZEROS
    };
    record.ends[0] = 0x0506_0708;
    record.ends[63] = 9;
    record.counters[0] = 0xA0B0_C0D0;
    record.counters[63] = 5;
    let bytes = record.to_bytes();
    assert_eq!(bytes.len(), 516);
    assert_eq!(bytes[..8], [1, 2, 3, 4, 5, 6, 7, 8]);
    assert_eq!(bytes[256..264], [0, 0, 0, 9, 0xA0, 0xB0, 0xC0, 0xD0]);
    assert_eq!(bytes[512..], [0, 0, 0, 5]);
    let between = [&bytes[8..256], &bytes[264..512]].concat();
    assert!(between.iter().all(|&byte| byte == 0));
    assert_eq!(Record::from_bytes(&bytes), record);

    let random = &mut Random(7);
    let any: [u8; RECORD_BYTES] = std::array::from_fn(|_| random.next() as u8);
    assert_eq!(Record::from_bytes(&any).to_bytes(), any);
}

/// What is said of a record, which leaves the picture. It is what Work says of it on a stripe that
/// there is.
fn refused(settings: &Settings, tape: &[u8], bytes: usize, record: &Record) -> Result<u32> {
    let mut picture = vec![PAINT; bytes];
    let workspace = &mut Workspace::new();
    let resumed = Job::resume(settings, tape, workspace, &mut picture, record);
    let resumed = resumed.map(|job| job.total());
    assert!(picture.iter().all(|&byte| byte == PAINT));
    resumed
}

fn because<T>(cause: Cause) -> Result<T> {
    Err(Refusal { cause, place: 0 })
}

/// A record with this counter.
fn counted(record: Record, stripe: usize, count: u32) -> Record {
    let mut counted = record;
    counted.counters[stripe] = count;
    counted
}

/// The record of a job in stripes of 8 rows, with this counter.
fn with_counter(stripe: usize, count: u32) -> Record {
    counted(record(41, 8), stripe, count)
}

#[test]
fn numbers_13_and_14_a_damaged_record() {
    let (settings, tape, total) = cue();
    let say = |record: &Record| refused(&settings, &tape, 48 * 41 * 4, record);
    assert_eq!(say(&record(41, 8)), Ok(total));
    assert_eq!(say(&record(41, 0)), because(Cause::StripesUnfit));
    assert_eq!(say(&with_counter(0, total)), Ok(total));
    assert_eq!(say(&with_counter(5, total)), Ok(total)); // the last stripe of 41 rows
    for record in [
        with_counter(0, total + 1),
        with_counter(5, total + 1),
        with_counter(3, u32::MAX),
        with_counter(6, 1),
        with_counter(63, 1),
    ] {
        assert_eq!(say(&record), because(Cause::CountersUnsound));
    }

    let high = plain(1, 65);
    let say = |stripe_height| refused(&high, &tape, 65 * 4, &record(65, stripe_height));
    assert_eq!(say(1), because(Cause::StripesUnfit));
    assert_eq!(say(2), Ok(5));
}

/// Counters go as far as the outline's cap lets the strokes: a record is one of its cap's jobs.
#[test]
fn number_14_a_counter_over_the_cap_s_strokes() {
    let (settings, tape, _) = cue();
    for cap in 0..=4 {
        let with = |outline_cap_px| Settings {
            outline_px: u32::MAX,
            outline_cap_px,
            ..settings
        };
        let total = 5 * (1 + 8 * cap);
        let say = |settings, count| {
            let record = with_counter(0, count);
            refused(&settings, &tape, 48 * 41 * 4, &record)
        };
        assert_eq!(say(with(cap), total), Ok(total));
        let unsound = because(Cause::CountersUnsound);
        assert_eq!(say(with(cap), total + 1), unsound);
        if cap > 0 {
            assert_eq!(say(with(cap - 1), total), unsound);
        }
    }
}

/// Counters do not go on to letters without ink: three of these five have some.
#[test]
fn number_14_a_counter_over_the_letters_with_ink() {
    let (settings, ..) = cue();
    let tape = tape("a bc\u{AD}");
    let say = |count| refused(&settings, &tape, 48 * 41 * 4, &with_counter(0, count));
    assert_eq!(say(3 * 9), Ok(3 * 9));
    for count in [3 * 9 + 1, 4 * 9, 5 * 9] {
        assert_eq!(say(count), because(Cause::CountersUnsound));
    }
}

#[test]
fn a_record_of_another_tape_or_picture_is_refused_where_it_cannot_be() {
    let (settings, tape, total) = cue();
    let done = with_counter(5, total);
    let shorter = &tape[..2];
    assert_eq!(
        refused(&settings, shorter, 48 * 41 * 4, &done),
        because(Cause::CountersUnsound)
    );
    let lower = Settings {
        height: 40,
        ..settings
    };
    assert_eq!(
        refused(&lower, &tape, 48 * 41 * 4, &done),
        because(Cause::StripesUnfit)
    );
}

#[test]
fn numbers_8_to_10_settings_and_lengths() {
    let (settings, tape, _) = cue();
    let record = record(41, 8);
    let size = 48 * 41 * 4;
    let say = |settings, tape: &[u8], bytes| refused(&settings, tape, bytes, &record);
    let wide = Settings {
        width: 4097,
        ..settings
    };
    let high = Settings {
        height: 4097,
        ..settings
    };
    assert_eq!(say(wide, &tape, size), because(Cause::OutOfRange));
    assert_eq!(say(high, &tape, size), because(Cause::OutOfRange));
    let short = say(settings, &tape, size - 1);
    assert_eq!(short, because(Cause::PictureTooShort));
    let long = say(settings, &[5; 16_385], size);
    assert_eq!(long, because(Cause::TapeTooLong));
}

#[test]
fn numbers_1_to_7_a_tape_at_fault() {
    let (settings, ..) = cue();
    let faults: [(&[u8], Cause, usize); 7] = [
        (&[5, 12], Cause::UnknownCommand, 1),
        (&[5, 5, 2], Cause::OperandsMissing, 2),
        (&[6], Cause::Unbalanced, 1),
        (&[5, 3, 0xD8, 0], Cause::NotAScalar, 1),
        (&[10; 17], Cause::TooDeep, 16),
        (&[5; 4097], Cause::TooManyLetters, 4096),
        (&[9, 1], Cause::NotInAName, 1),
    ];
    for (tape, cause, place) in faults {
        let say = |record: &Record| refused(&settings, tape, 48 * 41 * 4, record);
        let due = Err(Refusal { cause, place });
        assert_eq!(say(&record(41, 8)), due);
        // The stripes come before the tape, the counters after it.
        assert_eq!(say(&record(41, 0)), because(Cause::StripesUnfit));
        assert_eq!(say(&with_counter(9, 1)), due);
    }
}

fn without_rows() -> (Settings, Vec<u8>, u32) {
    let (settings, tape, total) = cue();
    let flat = Settings {
        height: 0,
        ..settings
    };
    (flat, tape, total)
}

#[test]
fn a_picture_without_rows_has_its_records_too() {
    let (flat, tape, total) = without_rows();
    let say = |tape: &[u8], record: &Record| refused(&flat, tape, AFTER, record);
    assert_eq!(say(&tape, &Record::ZEROS), Ok(total));
    for stripe_height in [0, 1, 8, u32::MAX] {
        let unfit = say(&tape, &record(41, stripe_height));
        assert_eq!(unfit, because(Cause::StripesUnfit));
    }
    for stripe in [0, 1, 63] {
        let unsound = say(&tape, &counted(Record::ZEROS, stripe, 1));
        assert_eq!(unsound, because(Cause::CountersUnsound));
    }
    let due = Refusal {
        cause: Cause::UnknownCommand,
        place: 1,
    };
    assert_eq!(say(&[5, 12], &Record::ZEROS), Err(due));
}

/// There is no stripe, so nothing can be done.
#[test]
fn a_job_without_rows_is_resumed() {
    let (flat, tape, total) = without_rows();
    let stored = opened(&flat, &tape, 8);
    let again = stored.resumed(&flat, &tape, |job| {
        assert_eq!((job.stripes(), job.total()), (0, total));
        let workspace = &mut Workspace::new();
        assert_eq!(job.work(workspace, 0, 1), because(Cause::NoSuchStripe));
    });
    assert_eq!(again, stored);
}

/// A record of any numbers, most of them such that a job might have it.
fn any_record(random: &mut Random, total: u32) -> Record {
    let mut record = record(41, random.under(50));
    for _ in 0..random.under(4) {
        let counter = &mut record.counters[random.under(12) as usize];
        *counter = random.under(total + 3);
    }
    record
}

/// The number of the refusal, or 0, of a Work without a budget on the first stripe.
fn refused_by_work(tape: &[u8], mut record: Record) -> u32 {
    // Those of `cue`.
    let settings = raw::Settings {
        default_color: 0x5AC8_0A8C,
        outline: 1,
        ..raw_plain(48, 41)
    };
    let buffers = Buffers {
        tape,
        workspace: &mut [0; WORKSPACE_BYTES],
        picture: &mut [0; 48 * 41 * 4],
    };
    let answer = raw::work(&settings, buffers, &mut record, 0, 0);
    (answer >> 32) as u32
}

#[test]
fn any_record_is_refused_as_work_refuses_it() {
    let (settings, tape, total) = cue();
    let mut numbers = [0; 15];
    for seed in 0..3_000 {
        let record = any_record(&mut Random(seed), total);
        let said = refused(&settings, &tape, 48 * 41 * 4, &record);
        let number = said.map_or_else(|refusal| refusal.cause.number(), |_| 0);
        assert_eq!(number, refused_by_work(&tape, record), "seed {seed}");
        numbers[number as usize] += 1;
    }
    for number in [0, 13, 14] {
        assert!(numbers[number] > 20, "{numbers:?}");
    }
}

//! Every refusal, 1 to 14: by the wrapper where it can be reached, else by `raw`.

mod common;

use captions::raw::{self, Buffers, Record};
use captions::{Cause, Job, Refusal, Result, Settings, Stripes, Workspace, draw, wrap};
use common::{PAINT, plain, record, tape};

/// A tape at fault, why it is refused, and the place.
fn faults() -> Vec<(Vec<u8>, Cause, usize)> {
    let letters = |count| tape(&"x".repeat(count));
    vec![
        (vec![2, b'A', 0x0C], Cause::UnknownCommand, 2),
        (vec![0xFF], Cause::UnknownCommand, 0),
        (vec![5, 8, 1, 2], Cause::OperandsMissing, 1),
        (vec![2, b'A', 0], Cause::Unbalanced, 2),
        (vec![6, 2, b'A'], Cause::Unbalanced, 3),
        (vec![9, 2, b'A'], Cause::Unbalanced, 3),
        (vec![5, 3, 0xDF, 0xFF], Cause::NotAScalar, 1),
        (vec![4, 0x11, 0x00, 0x00], Cause::NotAScalar, 0),
        ([vec![5], vec![0x0A; 17]].concat(), Cause::TooDeep, 17),
        (
            [letters(4096), vec![5]].concat(),
            Cause::TooManyLetters,
            2 * 4096,
        ),
        (
            [letters(4095), vec![9, 0]].concat(),
            Cause::TooManyLetters,
            2 * 4095 + 1,
        ),
        (vec![9, 2, b'A', 1], Cause::NotInAName, 3),
        (vec![5; 16_385], Cause::TapeTooLong, 0),
    ]
}

fn job(settings: &Settings, tape: &[u8], picture: &mut [u8], stripe_height: u32) -> Result<u32> {
    let stripes = Stripes::of_height(settings.height, stripe_height)?;
    let job = Job::open(settings, tape, &mut Workspace::new(), picture, &stripes);
    job.map(|job| job.total())
}

/// What Draw and Open say of a picture with these settings, on a buffer of so many bytes.
fn refusals(settings: &Settings, tape: &[u8], bytes: usize) -> [Refusal; 2] {
    let mut picture = vec![PAINT; bytes];
    let drawn = draw(settings, tape, &mut Workspace::new(), &mut picture).unwrap_err();
    // In one stripe, which fits every height.
    let opened = job(settings, tape, &mut picture, u32::MAX).unwrap_err();
    assert!(picture.iter().all(|&byte| byte == PAINT));
    [drawn, opened]
}

#[test]
fn a_tape_at_fault_is_refused_by_every_call() {
    let settings = plain(32, 32);
    for (tape, cause, place) in faults() {
        let due = Refusal { cause, place };
        assert_eq!(wrap(&tape, &mut Workspace::new(), 4), Err(due));
        assert_eq!(refusals(&settings, &tape, 32 * 32 * 4), [due; 2]);
        assert_eq!(cause.is_in_tape(), cause != Cause::TapeTooLong);
    }
}

#[test]
fn tapes_at_the_limits_are_admitted() {
    let lines = |tape: Vec<u8>| wrap(&tape, &mut Workspace::new(), 4).map(|lines| lines.len());
    assert_eq!(
        lines([vec![0x0A; 16], tape("x"), vec![0; 16]].concat()),
        Ok(1)
    );
    assert_eq!(lines(tape(&"x".repeat(captions::LETTERS_MAX))), Ok(1024));
    assert_eq!(lines(vec![0x0B; captions::TAPE_MAX]), Ok(0));
    assert_eq!(
        lines([tape(&"x".repeat(4094)), vec![9, 0, 0]].concat()),
        Ok(1024)
    );
}

#[test]
fn number_8_a_setting() {
    let due = Refusal {
        cause: Cause::OutOfRange,
        place: 0,
    };
    let good = plain(8, 8);
    let over = [
        Settings {
            width: captions::SIDE_MAX + 1,
            ..good
        },
        Settings {
            height: captions::SIDE_MAX + 1,
            ..good
        },
        Settings {
            line_height_px: captions::LINE_HEIGHT_MAX + 1,
            ..good
        },
    ];
    for settings in over {
        assert_eq!(refusals(&settings, &[12], 0), [due; 2]);
    }
    let highest = Settings {
        line_height_px: captions::LINE_HEIGHT_MAX,
        ..good
    };
    assert_eq!(job(&highest, &[], &mut [0; 8 * 8 * 4], 8), Ok(0));
}

/// Settings with one of the three house settings so, and how large each may be.
type House = (fn(u32) -> raw::Settings, u32);

const HOUSE: [House; 3] = [
    (
        |side_margin| raw::Settings {
            side_margin,
            ..PLAIN
        },
        255,
    ),
    (|slant| raw::Settings { slant, ..PLAIN }, 8),
    (
        |outline_cap| raw::Settings {
            outline_cap,
            ..PLAIN
        },
        4,
    ),
];

#[test]
fn number_8_a_house_setting() {
    for (with, most) in HOUSE {
        for end in [0, 1, most - 1, most] {
            assert_eq!(raw_draw(with(end), &[2, b'A'], 65_536), 1);
            assert_eq!(raw_open(with(end), &[2, b'A'], 5), (1, record(16, 5)));
            let work = raw_work_with(with(end), &mut record(16, 8), 65_536, 1);
            assert_eq!(work, 1);
        }
        for over in [most + 1, most + 2, 256, 1 << 16, 1 << 31, u32::MAX] {
            // It comes before all else that is wrong.
            assert_eq!(raw_draw(with(over), &[12], 0), 8 << 32);
            assert_eq!(raw_open(with(over), &[12], 0), (8 << 32, Record::ZEROS));
            let work = raw_work_with(with(over), &mut { ANY }, 0, u32::MAX);
            assert_eq!(work, 8 << 32);
        }
    }
}

/// The wrapper's constants are the ends of the ranges.
#[test]
fn number_8_a_house_setting_by_the_wrapper() {
    let due = Refusal {
        cause: Cause::OutOfRange,
        place: 0,
    };
    let good = plain(8, 8);
    let with = |side_margin_px, slant, outline_cap_px| Settings {
        side_margin_px,
        slant,
        outline_cap_px,
        ..good
    };
    let [margin, slant, cap] = [
        captions::SIDE_MARGIN_MAX,
        captions::SLANT_MAX,
        captions::OUTLINE_CAP_MAX,
    ];
    for over in [
        with(margin + 1, slant, cap),
        with(margin, slant + 1, cap),
        with(margin, slant, cap + 1),
    ] {
        assert_eq!(refusals(&over, &[12], 0), [due; 2]);
        let (workspace, picture) = (&mut Workspace::new(), &mut [0; 8 * 8 * 4]);
        let resumed = Job::resume(&over, &[], workspace, picture, &record(8, 8));
        assert_eq!(resumed.map(|job| job.total()), Err(due));
    }
    for ends in [with(margin, slant, cap), with(0, 0, 0)] {
        assert_eq!(job(&ends, &[], &mut [0; 8 * 8 * 4], 8), Ok(0));
    }
}

#[test]
fn number_8_a_column_limit_an_alignment_or_a_glyph_mode() {
    let due = Refusal {
        cause: Cause::OutOfRange,
        place: 0,
    };
    for limit in [0, captions::COLUMNS_MAX + 1] {
        assert_eq!(wrap(&[12], &mut Workspace::new(), limit), Err(due));
    }
    assert_eq!(
        wrap(&[], &mut Workspace::new(), captions::COLUMNS_MAX),
        Ok(vec![])
    );

    let misaligned = raw::Settings {
        alignment: 5, // which the wrapper cannot ask for
        ..PLAIN
    };
    assert_eq!(raw_draw(misaligned, &[], 65_536), 8 << 32);
    for glyph_mode in [2, 256, 1 << 31, u32::MAX] {
        let other = raw::Settings {
            glyph_mode, // nor for this
            ..PLAIN
        };
        assert_eq!(raw_draw(other, &[12], 0), 8 << 32);
    }
}

#[test]
fn number_9_a_short_picture() {
    let due = Refusal {
        cause: Cause::PictureTooShort,
        place: 0,
    };
    assert_eq!(refusals(&plain(8, 8), &[12], 8 * 8 * 4 - 1), [due; 2]);
    assert_eq!(refusals(&plain(8, 8), &[12; 16_385], 0), [due; 2]);
}

#[test]
fn numbers_12_and_13_stripes() {
    let settings = plain(4, 65);
    let mut picture = settings.new_picture();
    let due = Refusal {
        cause: Cause::StripesUnfit,
        place: 0,
    };
    assert_eq!(job(&settings, &[12], &mut picture, 0), Err(due));
    assert_eq!(job(&settings, &[12], &mut picture, 1), Err(due));
    let workspace = &mut Workspace::new();
    let stripes = Stripes::of_height(65, 2).unwrap();
    let mut open = Job::open(&settings, &[], workspace, &mut picture, &stripes).unwrap();
    assert_eq!(open.work(workspace, 32, 1), Ok(0));
    assert_eq!(
        open.work(workspace, 33, 1),
        Err(Refusal {
            cause: Cause::NoSuchStripe,
            place: 0
        })
    );
}

/// A picture of 8 by 16, white letters and no outline.
const PLAIN: raw::Settings = raw::Settings {
    width: 8,
    height: 16,
    default_color: 0xFFFF_FFFF,
    outline_color: 0x0000_00FF,
    line_height: 16,
    bottom_margin: 0,
    outline: 0,
    alignment: 1,
    glyph_mode: 0,
    side_margin: 8,
    slant: 2,
    outline_cap: 2,
};

fn raw_draw(settings: raw::Settings, tape: &[u8], room: usize) -> u64 {
    let mut workspace = vec![PAINT; room];
    let mut picture = vec![PAINT; 8 * 16 * 4];
    let buffers = Buffers {
        tape,
        workspace: &mut workspace,
        picture: &mut picture,
    };
    let answer = raw::draw(&settings, buffers);
    let refused = answer >> 32 != 0;
    assert!(!refused || picture.iter().all(|&byte| byte == PAINT));
    let kept = matches!(answer >> 32, 8..=11);
    assert!(!kept || workspace.iter().all(|&byte| byte == PAINT));
    answer
}

/// The answer of Open, which must leave the picture where it is refused, and its record.
fn raw_open(settings: raw::Settings, tape: &[u8], stripe_height: u32) -> (u64, Record) {
    let mut record = ANY;
    let mut picture = vec![PAINT; 8 * 16 * 4];
    let buffers = Buffers {
        tape,
        workspace: &mut vec![PAINT; 65_536],
        picture: &mut picture,
    };
    let stripes = raw::Stripes::of_height(settings.height, stripe_height);
    let answer = raw::open(&settings, buffers, &stripes, &mut record);
    let refused = answer >> 32 != 0;
    assert!(!refused || picture.iter().all(|&byte| byte == PAINT));
    (answer, record)
}

fn raw_work(record: &mut Record, room: usize, stripe: u32) -> u64 {
    raw_work_with(PLAIN, record, room, stripe)
}

/// The answer of Work on a record, which a refusal must leave, with the picture.
fn raw_work_with(settings: raw::Settings, record: &mut Record, room: usize, stripe: u32) -> u64 {
    let before = *record;
    let mut workspace = vec![PAINT; room];
    let mut picture = vec![PAINT; 8 * 16 * 4];
    let buffers = Buffers {
        tape: &[2, b'A'],
        workspace: &mut workspace,
        picture: &mut picture,
    };
    let answer = raw::work(&settings, buffers, record, stripe, 1);
    if answer >> 32 != 0 {
        assert_eq!(*record, before);
        assert!(picture.iter().all(|&byte| byte == PAINT));
    }
    let kept = matches!(answer >> 32, 8..=11 | 13);
    assert!(!kept || workspace.iter().all(|&byte| byte == PAINT));
    answer
}

/// A record that no job has.
const ANY: Record = Record {
    count: u32::MAX,
    ends: [u32::MAX; 64],
    counters: [u32::MAX; 64],
};

#[test]
fn number_11_a_short_workspace() {
    assert_eq!(raw_draw(PLAIN, &[2, b'A'], 65_536), 1);
    assert_eq!(raw_draw(PLAIN, &[2, b'A'], 65_535), 11 << 32);
    assert_eq!(raw_draw(PLAIN, &[12; 16_385], 0), 10 << 32);
    assert_eq!(raw_work(&mut record(16, 8), 65_535, 0), 11 << 32);
    let mut workspace = vec![PAINT; 65_535];
    assert_eq!(raw::wrap(&[], &mut workspace, 4), 11 << 32);
    assert!(workspace.iter().all(|&byte| byte == PAINT));
}

#[test]
fn a_refused_raw_open_gives_zeros() {
    let open = |tape: &[u8], stripe_height| raw_open(PLAIN, tape, stripe_height);
    assert_eq!(open(&[2, b'A'], 5), (1, record(16, 5)));
    assert_eq!(open(&[2, b'A'], 0), (13 << 32, Record::ZEROS));
    assert_eq!(open(&[2, b'A', 6], 5), (3 << 32 | 3, Record::ZEROS));
}

#[test]
fn number_14_a_record_that_no_job_has() {
    assert_eq!(raw_work(&mut record(16, 8), 65_536, 1), 1);
    assert_eq!(raw_work(&mut { Record::ZEROS }, 65_536, 0), 13 << 32);
    assert_eq!(raw_work(&mut record(16, 8), 65_536, 2), 12 << 32);
    let mut over = record(16, 8);
    over.counters[0] = 2;
    assert_eq!(raw_work(&mut over, 65_536, 2), 14 << 32);
    let mut past = record(16, 8);
    past.counters[2] = 1;
    assert_eq!(raw_work(&mut past, 65_536, 0), 14 << 32);
    assert_eq!(raw_work(&mut { ANY }, 65_536, u32::MAX), 13 << 32);
}

#[test]
fn every_refusal_says_its_cause() {
    let words = [
        "not a command",
        "operands",
        "closes no list",
        "surrogate",
        "16 lists",
        "4096 letters",
        "voice's name holds only letters",
        "setting or the column limit",
        "picture's buffer",
        "16384 bytes",
        "workspace",
        "no such stripe",
        "ends do not rise",
        "counter",
        "unknown",
    ];
    let causes = (1..=14).map(Cause::of).chain([Cause::Unknown(99)]);
    for (number, cause) in (1..).zip(causes) {
        let sentence = cause.sentence();
        let told = words.iter().filter(|words| sentence.contains(**words));
        assert_eq!(told.collect::<Vec<_>>(), [&words[number - 1]], "{sentence}");
        let place = if number <= 7 { " at byte 3" } else { "" };
        let due = format!("refused {}{place}: {sentence}", cause.number());
        assert_eq!(Refusal { cause, place: 3 }.to_string(), due);
    }
}

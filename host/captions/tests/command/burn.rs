//! `captions burn`.

use crate::run::run;
use captions::{Align, GlyphMode, Settings, Workspace, draw};

/// Two lines, letters of the default color and others, a curly quote, and an italic letter.
const CUE: &[u8] =
    b"\x02H\x02i\x05\x08\x20\xc0\x40\x02y\x02o\x02u\x00\x02!\x03\x20\x19\x07\x02E\x00";

/// The file that is due.
fn due(settings: &Settings, tape: &[u8]) -> Vec<u8> {
    let Settings { width, height, .. } = settings;
    let mut picture = settings.new_picture();
    draw(settings, tape, &mut Workspace::new(), &mut picture).expect("an admitted cue");
    let header = format!(
        "P7\nWIDTH {width}\nHEIGHT {height}\nDEPTH 4\nMAXVAL 255\nTUPLTYPE RGB_ALPHA\nENDHDR\n"
    );
    [header.as_bytes(), &picture].concat()
}

fn burnt(words: &[&str]) -> Vec<u8> {
    run(&[&["burn"], words].concat(), CUE).done()
}

fn settings() -> Settings {
    Settings::new(640, 360)
}

#[test]
fn burns_what_draw_draws() {
    assert!(burnt(&[]) == due(&settings(), CUE));
    assert!(run(&["burn"], b"").done() == due(&settings(), b""));
    let small = Settings {
        width: 61,
        height: 47,
        default_color: [1, 2, 3, 128],
        outline_color: [250, 0, 90, 77],
        line_height_px: 17,
        bottom_margin_px: 4,
        outline_px: 2,
        align: Align::Right,
        glyph_mode: GlyphMode::Replaced,
        side_margin_px: 13,
        slant: 7,
        outline_cap_px: 1,
    };
    let words = "--width 61 --height 47 --default-color 01020380 --outline-color FA005A4D \
        --line-height 17 --bottom-margin 4 --outline 2 --align right --glyph-mode 1 \
        --side-margin 13 --slant 7 --outline-cap 1";
    let words: Vec<&str> = words.split_whitespace().collect();
    assert!(burnt(&words) == due(&small, CUE));
}

#[test]
fn takes_frames_without_pixels() {
    for (width, height) in [("0", "9"), ("9", "0"), ("0", "0")] {
        let file = burnt(&["--width", width, "--height", height]);
        let header = format!("P7\nWIDTH {width}\nHEIGHT {height}\nDEPTH 4\n");
        assert!(file.starts_with(header.as_bytes()) && file.ends_with(b"ENDHDR\n"));
    }
}

/// Holds an option with a value to the one change that it makes, which has to show.
#[track_caller]
fn sets(name: &str, value: &str, change: impl Fn(&mut Settings)) {
    sets_beside(&[], settings(), [name, value], change);
}

/// The same, beside options that make other settings.
#[track_caller]
fn sets_beside(
    words: &[&str],
    settings: Settings,
    [name, value]: [&str; 2],
    change: impl Fn(&mut Settings),
) {
    let mut changed = settings;
    change(&mut changed);
    let frame = due(&changed, CUE);
    let shows = frame != due(&settings, CUE);
    assert_eq!(shows, changed != settings, "{name} {value}");
    let burnt = |more: &[&str]| burnt(&[words, more].concat());
    assert!(burnt(&[name, value]) == frame, "{name} {value}");
    let word = format!("{name}={value}");
    assert!(burnt(&[&word]) == frame, "{word}");
}

#[test]
fn each_option_sets_its_setting_alone() {
    sets("--width", "200", |settings| settings.width = 200);
    sets("--height", "100", |settings| settings.height = 100);
    sets("--line-height", "40", |settings| {
        settings.line_height_px = 40
    });
    sets("--bottom-margin", "3", |settings| {
        settings.bottom_margin_px = 3
    });
    sets("--bottom-margin", "4294967295", |settings| {
        settings.bottom_margin_px = u32::MAX;
    });
    sets("--outline", "0", |settings| settings.outline_px = 0);
    sets("--outline", "2", |settings| settings.outline_px = 2);
    sets("--outline", "4294967295", |settings| {
        settings.outline_px = u32::MAX
    });
}

#[test]
fn colors_are_hexadecimal() {
    let cases = [
        ("102030", [0x10, 0x20, 0x30, 0xff]),
        ("#a0B0c0", [0xa0, 0xb0, 0xc0, 0xff]),
        ("01020384", [1, 2, 3, 0x84]),
        ("#FFEEDD80", [0xff, 0xee, 0xdd, 0x80]),
    ];
    for (value, color) in cases {
        sets("--default-color", value, |settings| {
            settings.default_color = color
        });
        sets("--outline-color", value, |settings| {
            settings.outline_color = color
        });
    }
}

#[test]
fn lines_stand_where_they_are_aligned() {
    let cases = [
        ("left", Align::Left),
        ("start", Align::Start),
        ("right", Align::Right),
        ("end", Align::End),
        ("center", Align::Center),
        ("centre", Align::Center),
    ];
    for (value, align) in cases {
        sets("--align", value, |settings| settings.align = align);
    }
}

#[test]
fn glyphs_are_of_the_mode() {
    let cases = [("0", GlyphMode::Kept), ("1", GlyphMode::Replaced)];
    for (value, mode) in cases {
        sets("--glyph-mode", value, |settings| settings.glyph_mode = mode);
    }
}

/// A side margin shows at a side alone, and a cap where the outline goes over it.
#[test]
fn house_settings_are_as_asked() {
    let words = ["--align", "end", "--outline", "9"];
    let settings = Settings {
        align: Align::End,
        outline_px: 9,
        ..settings()
    };
    let sets = |name: &str, value: u32, change: fn(&mut Settings, u32)| {
        let option = [name, &value.to_string()[..]];
        sets_beside(&words, settings, option, |settings| change(settings, value));
    };
    for value in [0, 7, 8, 9, 255] {
        sets("--side-margin", value, |settings, value| {
            settings.side_margin_px = value;
        });
    }
    for value in 0..=8 {
        sets("--slant", value, |settings, value| settings.slant = value);
    }
    for value in 0..=4 {
        sets("--outline-cap", value, |settings, value| {
            settings.outline_cap_px = value;
        });
    }
}

#[test]
fn the_last_of_an_option_counts() {
    assert!(
        burnt(&[
            "--width",
            "9",
            "--width=640",
            "--align",
            "left",
            "--align=center"
        ]) == burnt(&[])
    );
}

#[test]
fn stripes_make_the_same_frame() {
    let size = ["--width", "80", "--height", "50"];
    let whole = burnt(&size);
    for stripes in ["1", "7", "16", "49", "50", "51", "4294967295"] {
        let striped = |more: &[&str]| burnt(&[&size[..], &["--stripes", stripes], more].concat());
        assert!(striped(&[]) == whole, "{stripes}");
        assert!(striped(&["--budget", "1"]) == whole, "{stripes}");
        assert!(striped(&["--budget=5"]) == whole, "{stripes}");
        assert!(striped(&["--budget", "4294967295"]) == whole, "{stripes}");
    }
}

#[test]
fn a_frame_has_none_to_64_stripes() {
    let none = burnt(&["--height", "0"]);
    assert!(burnt(&["--height", "0", "--stripes", "3", "--budget", "2"]) == none);
    let low = burnt(&["--height", "64"]);
    assert!(burnt(&["--height", "64", "--stripes", "1"]) == low);
}

/// The list of these rows.
fn list(ends: impl IntoIterator<Item = u32>) -> String {
    let ends: Vec<String> = ends.into_iter().map(|end| end.to_string()).collect();
    ends.join(",")
}

#[test]
fn unequal_stripes_make_the_same_frame() {
    let size = ["--width", "80", "--height", "80"];
    let whole = burnt(&size);
    let tall_above = list(17..=80);
    for ends in ["80", "1,80", "79,80", "40,56,60,61,70,80", &tall_above] {
        let striped = |more: &[&str]| burnt(&[&size[..], &["--stripe-ends", ends], more].concat());
        assert!(striped(&[]) == whole, "{ends}");
        assert!(striped(&["--budget", "1"]) == whole, "{ends}");
        assert!(striped(&["--budget=50"]) == whole, "{ends}");
    }
    let none = burnt(&["--height", "0"]);
    assert!(burnt(&["--height", "0", "--stripe-ends", "", "--budget", "2"]) == none);
    // Of two the last counts.
    assert!(burnt(&["--stripe-ends", "7", "--stripe-ends=300,360"]) == burnt(&[]));
}

/// A height, ends that do not fit it, and what is said of them.
const UNFIT_ENDS: [[&str; 3]; 10] = [
    ["360", "", "is empty, and the last end is the height, 360"],
    ["360", "0", "begins with 0, and a stripe has a row at least"],
    [
        "360",
        "0,360",
        "begins with 0, and a stripe has a row at least",
    ],
    [
        "360",
        "300,340,340,360",
        "has 340 behind 340, and each end is past the one before it",
    ],
    [
        "360",
        "300,299,360",
        "has 299 behind 300, and each end is past the one before it",
    ],
    [
        "360",
        "300,4294967295,360",
        "has 360 behind 4294967295, and each end is past the one before it",
    ],
    [
        "360",
        "300,359",
        "ends with 359, and the last end is the height, 360",
    ],
    [
        "360",
        "361",
        "ends with 361, and the last end is the height, 360",
    ],
    [
        "0",
        "0",
        "has an end, 0, and a frame without rows has no stripe",
    ],
    [
        "0",
        "3,7",
        "has an end, 3, and a frame without rows has no stripe",
    ],
];

#[test]
fn says_where_stripes_may_end() {
    let many = list((1..=64).chain([360]));
    let too_many = ["360", &many, "has 65 ends, and 64 are the most"];
    for [height, ends, why] in UNFIT_ENDS.into_iter().chain([too_many]) {
        let message = format!("refused 13: --stripe-ends {why}");
        let words = ["burn", "--height", height, "--stripe-ends", ends];
        run(&words, CUE).failed(1, "", &message);
        // They come before the tape, and after its length and the settings.
        run(&words, b"\x06").failed(1, "", &message);
        let message = "refused 10: the tape has more than 16384 bytes";
        run(&words, &[0x01; 16_385]).failed(1, "", message);
        let message = "refused 8: --slant is 9, and its range is 0 to 8";
        run(&[&words[..], &["--slant", "9"]].concat(), CUE).failed(1, "", message);
    }
}

#[test]
fn shows_progress_at_a_terminal_alone() {
    // Long enough for some; standard error, a pipe here, has to stay empty.
    let tape = b"\x02W\x02i".repeat(100);
    let words = [
        "burn",
        "--width",
        "1000",
        "--stripes",
        "18",
        "--budget",
        "1",
    ];
    assert!(run(&words, &tape).done() == run(&words[..3], &tape).done());
}

#[test]
fn names_the_settings_out_of_range() {
    let cases = [
        ("--width", "4097", 4096),
        ("--height", "4294967295", 4096),
        ("--line-height", "1025", 1024),
        ("--side-margin", "256", 255),
        ("--slant", "9", 8),
        ("--outline-cap", "5", 4),
        ("--side-margin", "4294967295", 255),
        ("--slant", "4294967295", 8),
        ("--outline-cap", "4294967295", 4),
    ];
    for (name, value, most) in cases {
        let message = format!("refused 8: {name} is {value}, and its range is 0 to {most}");
        run(&["burn", name, value], CUE).failed(1, "", &message);
        // The settings come before the tape and the stripes.
        run(&["burn", name, value, "--stripes", "0"], b"\x06").failed(1, "", &message);
    }
    let message = "refused 8: --width is 5000, and its range is 0 to 4096; \
        --line-height is 2000, and its range is 0 to 1024";
    run(&["burn", "--line-height", "2000", "--width", "5000"], CUE).failed(1, "", message);
    let message = "refused 8: --side-margin is 300, and its range is 0 to 255; \
        --slant is 90, and its range is 0 to 8; --outline-cap is 6, and its range is 0 to 4";
    let words = "burn --outline-cap 6 --slant 90 --side-margin 300";
    let words: Vec<&str> = words.split(' ').collect();
    run(&words, CUE).failed(1, "", message);
}

#[test]
fn takes_settings_at_the_end_of_their_ranges() {
    for (name, value) in [
        ("--width", "4096"),
        ("--height", "4096"),
        ("--line-height", "1024"),
        ("--side-margin", "255"),
        ("--slant", "8"),
        ("--outline-cap", "4"),
    ] {
        run(&["burn", name, value], CUE).done();
    }
}

#[test]
fn says_how_high_stripes_may_be() {
    let message = "refused 13: --stripes is 0, and a stripe has a row at least";
    run(&["burn", "--stripes", "0"], CUE).failed(1, "", message);
    let message = "refused 13: --stripes 5 cuts 360 rows into 72 stripes, and 64 are the most: \
        take 6 or more";
    run(&["burn", "--stripes", "5"], CUE).failed(1, "", message);
    assert!(burnt(&["--stripes", "6"]) == burnt(&[]));
    let message = "refused 10: the tape has more than 16384 bytes";
    run(&["burn", "--stripes", "0"], &[0x01; 16_385]).failed(1, "", message);
}

#[test]
fn refused_tapes_leave_nothing() {
    let longer = [0x01; 16_385];
    let cases: [(&[u8], &str); 3] = [
        (
            b"\x06",
            "refused 3 at byte 1: the tape ends in the list that byte 0 opened",
        ),
        (
            b"\x02A\x03\xd8\x00",
            "refused 4 at byte 2: the code point D800 is a surrogate",
        ),
        (&longer, "refused 10: the tape has more than 16384 bytes"),
    ];
    for (tape, message) in cases {
        run(&["burn"], tape).failed(1, "", message);
        run(&["burn", "--stripes", "100"], tape).failed(1, "", message);
        run(&["burn", "--stripe-ends", "300,360"], tape).failed(1, "", message);
    }
}

//! The words of the command line.

use crate::run::{command, run};

fn help(words: &[&str]) -> String {
    String::from_utf8(run(words, b"").done()).expect("help is UTF-8")
}

#[test]
fn helps() {
    let general = help(&["--help"]);
    assert!(general.starts_with("usage: captions text"));
    for word in [
        "show",
        "lines",
        "burn",
        "--version",
        "Exit status: 0",
        "3 the input",
    ] {
        assert!(general.contains(word), "{word}");
    }
    assert_eq!(help(&["-h"]), general);
    assert_eq!(help(&["help"]), general);
    assert_eq!(help(&["help", "--help"]), general);
}

#[test]
fn helps_with_each_subcommand() {
    for subcommand in ["text", "show", "lines", "burn", "keep"] {
        let due = help(&[subcommand, "--help"]);
        assert!(due.starts_with(&format!("usage: captions {subcommand}")));
        assert!(due.contains("Exit status: 0"));
        assert_eq!(help(&[subcommand, "-h"]), due);
        assert_eq!(help(&["help", subcommand]), due);
    }
    assert_eq!(
        help(&["burn", "--width", "9", "--help"]),
        help(&["help", "burn"])
    );
}

/// An option, and what the two lines of its help say.
type Said = [&'static str; 3];

const OF_BURN: [Said; 15] = [
    ["--width", "from 0 to 4096", "640 by default"],
    ["--height", "from 0 to 4096", "360 by default"],
    [
        "--default-color",
        "RRGGBB or RRGGBBAA",
        "FFFFFFFF by default",
    ],
    [
        "--outline-color",
        "RRGGBB or RRGGBBAA",
        "000000FF by default",
    ],
    ["--line-height", "from 0 to 1024", "20 by default"],
    ["--bottom-margin", "from 0 to 4294967295", "24 by default"],
    ["--outline", "from 0 to 4294967295", "1 by default"],
    [
        "--align",
        "center (or centre), left, start, right or end",
        "center by default",
    ],
    ["--glyph-mode", "0 or 1", "0 by default"],
    ["--side-margin", "from 0 to 255", "8 by default"],
    ["--slant", "from 0 to 8", "2 by default"],
    ["--outline-cap", "from 0 to 4", "2 by default"],
    ["--stripes", "from 1 to 4294967295", "64"],
    ["--stripe-ends", "rows with commas between them", "64"],
    ["--budget", "from 1 to 4294967295", "all by default"],
];

const OF_LINES: [Said; 1] = [["--columns", "from 1 to 4096", "4 by default"]];

#[test]
fn help_gives_ranges_and_defaults() {
    let burn = OF_BURN.map(|said| ("burn", said));
    let lines = OF_LINES.map(|said| ("lines", said));
    for (subcommand, [name, takes, more]) in burn.into_iter().chain(lines) {
        let help = help(&[subcommand, "--help"]);
        let head = format!("  {name} ");
        let mut lines = help.lines().skip_while(|line| !line.starts_with(&head));
        assert!(
            lines.next().is_some_and(|line| line.contains(takes)),
            "{name}"
        );
        assert!(
            lines.next().is_some_and(|line| line.contains(more)),
            "{name}"
        );
    }
}

#[test]
fn gives_its_version() {
    let due = format!("captions {}\n", env!("CARGO_PKG_VERSION"));
    assert_eq!(help(&["--version"]), due);
}

#[test]
fn says_what_it_can_do_where_it_is_not_asked() {
    let message =
        "usage: captions text|show|lines|burn|keep [options] < input > output; see captions --help";
    run(&[], b"").failed(2, "", message);
}

/// Words, with a blank between each two, and what is wrong with them.
type Wrong = (&'static str, &'static str);

/// The help named is the general one.
const WRONG: [Wrong; 6] = [
    ("bogus", "there is no subcommand \"bogus\""),
    ("", "there is no subcommand \"\""),
    ("--bogus", "there is no option \"--bogus\""),
    ("help bogus", "there is no subcommand \"bogus\""),
    ("help text more", "the argument \"more\" is one too many"),
    ("--version more", "the argument \"more\" is one too many"),
];

/// The help named is that of the subcommand, the first of the words.
const WRONG_OF_A_SUBCOMMAND: [Wrong; 13] = [
    ("show cue.tape", "the argument \"cue.tape\" is one too many"),
    ("text --width=3", "text has no option \"--width\""),
    ("show -x", "show has no option \"-x\""),
    ("lines --budget 3", "lines has no option \"--budget\""),
    ("burn --color 3", "burn has no option \"--color\""),
    (
        "lines --text=yes",
        "--text takes no value, and \"yes\" is one",
    ),
    (
        "lines --columns",
        "the value of --columns is missing: it takes a number from 1 to 4096",
    ),
    (
        "burn --align Left",
        "--align takes center (or centre), left, start, right or end, not \"Left\"",
    ),
    (
        "burn --glyph-mode 2",
        "--glyph-mode takes 0 or 1, not \"2\"",
    ),
    (
        "burn --budget 3",
        "--budget needs --stripes or --stripe-ends",
    ),
    (
        "burn --stripes 9 --stripe-ends 360",
        "--stripes and --stripe-ends cannot both be given",
    ),
    (
        "burn --stripe-ends= --budget 3 --stripes=9",
        "--stripes and --stripe-ends cannot both be given",
    ),
    (
        "keep --stripe-ends 360",
        "keep has no option \"--stripe-ends\"",
    ),
];

/// Runs the words and holds what is said of them to what is wrong and the help that is named.
fn says(words: &str, wrong: &str, subcommand: &str) {
    let words: Vec<&str> = words.split(' ').collect();
    let input = if wrong.ends_with("too many") {
        " (input comes from standard input)"
    } else {
        ""
    };
    let message = format!("{wrong}{input}; see captions{subcommand} --help");
    run(&words, b"").failed(2, "", &message);
}

/// The same of a subcommand's words, where its help is named.
fn says_of_a_subcommand(words: &str, wrong: &str) {
    let subcommand = words.split(' ').next().unwrap_or_default();
    says(words, wrong, &format!(" {subcommand}"));
}

#[test]
fn says_what_is_wrong_with_the_words() {
    for (words, wrong) in WRONG {
        says(words, wrong, "");
    }
    for (words, wrong) in WRONG_OF_A_SUBCOMMAND {
        says_of_a_subcommand(words, wrong);
    }
}

/// Words, and of the option at fault its name, its range and its value.
const NO_NUMBERS: [(&str, [&str; 3]); 8] = [
    ("lines --columns -1", ["--columns", "1 to 4096", "-1"]),
    (
        "burn --width --height",
        ["--width", "0 to 4096", "--height"],
    ),
    (
        "burn --outline=4294967296",
        ["--outline", "0 to 4294967295", "4294967296"],
    ),
    ("burn --line-height=", ["--line-height", "0 to 1024", ""]),
    ("burn --side-margin -1", ["--side-margin", "0 to 255", "-1"]),
    ("keep --slant=2.5", ["--slant", "0 to 8", "2.5"]),
    ("keep --outline-cap two", ["--outline-cap", "0 to 4", "two"]),
    (
        "burn --stripes 9 --budget 0",
        ["--budget", "1 to 4294967295", "0"],
    ),
];

#[test]
fn says_which_value_is_no_number() {
    for (words, [name, range, value]) in NO_NUMBERS {
        let wrong = format!("{name} takes a number from {range}, not {value:?}");
        says_of_a_subcommand(words, &wrong);
    }
}

const NO_ENDS: [&str; 9] = [
    "x",
    ",",
    "360,",
    ",360",
    "300,,360",
    "300, 360",
    "300;360",
    "-1,360",
    "300,4294967296",
];

#[test]
fn says_which_value_is_no_list_of_rows() {
    for value in NO_ENDS {
        let message = format!(
            "--stripe-ends takes rows with commas between them, as 300,340,360, not {value:?}; \
             see captions burn --help"
        );
        run(&["burn", "--stripe-ends", value], b"").failed(2, "", &message);
    }
}

const NO_COLORS: [&str; 11] = [
    "",
    "#",
    "FFF",
    "12345",
    "+12345",
    "1234567",
    "123456789",
    "GGGGGG",
    "##123456",
    "#+1234567",
    "éé00",
];

#[test]
fn says_which_value_is_no_color() {
    for value in NO_COLORS {
        let wrong = format!("a color in hexadecimal, RRGGBB or RRGGBBAA, not {value:?}");
        let message = |name: &str| format!("{name} takes {wrong}; see captions burn --help");
        let [letters, outline] = ["--default-color", "--outline-color"];
        run(&["burn", letters, value], b"").failed(2, "", &message(letters));
        run(&["burn", outline, value], b"").failed(2, "", &message(outline));
    }
}

#[test]
#[cfg(unix)]
fn says_that_an_argument_is_not_utf8() {
    use std::ffi::OsStr;
    use std::os::unix::ffi::OsStrExt;
    for words in [&[][..], &["burn", "--width"]] {
        let output = command(words).arg(OsStr::from_bytes(b"a\xff")).output();
        let output = output.expect("the command runs");
        assert_eq!((output.status.code(), output.stdout.len()), (Some(2), 0));
        let message = "captions: the argument \"a\\xFF\" is not UTF-8; see captions --help\n";
        assert_eq!(String::from_utf8_lossy(&output.stderr), message);
    }
}

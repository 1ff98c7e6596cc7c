//! `captions text`.

use crate::run::{run, run_open, run_shell};
use captions::{Workspace, wrap};

const FULL: &str = "a cue has at most 4096 letters, breaks counted";

/// Holds the tape of each of some words to what is due.
fn writes(cases: &[(&str, &[u8])]) {
    for (words, tape) in cases {
        assert_eq!(run(&["text"], words.as_bytes()).done(), *tape, "{words:?}");
    }
}

#[test]
fn writes_each_letter_shortest() {
    writes(&[
        ("", b""),
        ("A", b"\x02A"),
        ("\0\t\x1b", b"\x02\x00\x02\x09\x02\x1b"),
        ("é", b"\x02\xe9"),
        ("ÿĀ", b"\x02\xff\x03\x01\x00"),
        ("€", b"\x03\x20\xac"),
        ("\u{d7ff}\u{e000}", b"\x03\xd7\xff\x03\xe0\x00"),
        ("\u{ffff}\u{10000}", b"\x03\xff\xff\x04\x01\x00\x00"),
        ("😀", b"\x04\x01\xf6\x00"),
        ("\u{10ffff}", b"\x04\x10\xff\xff"),
        ("\u{2028}\u{85}\u{b}", b"\x03\x20\x28\x02\x85\x02\x0b"),
        ("A€😀é", b"\x02A\x03\x20\xac\x04\x01\xf6\x00\x02\xe9"),
    ]);
}

#[test]
fn writes_newlines_as_breaks() {
    writes(&[
        ("\n", b"\x05"),
        ("a\nb\n", b"\x02a\x05\x02b\x05"),
        ("a\r\nb", b"\x02a\x05\x02b"),
        ("a\rb", b"\x02a\x02\r\x02b"),
        ("a\r", b"\x02a\x02\r"),
        ("\r\r\n\n", b"\x02\r\x05\x05"),
        ("\n\r", b"\x05\x02\r"),
        // U+020D's command ends in the bytes of a CR's.
        ("\u{20d}\n", b"\x03\x02\x0d\x05"),
        ("\r\n\r\n", b"\x05\x05"),
    ]);
}

#[test]
fn passes_over_a_mark_at_the_start_alone() {
    writes(&[
        ("\u{feff}", b""),
        ("\u{feff}A", b"\x02A"),
        ("A\u{feff}", b"\x02A\x03\xfe\xff"),
        ("\u{feff}\u{feff}", b"\x03\xfe\xff"),
    ]);
}

/// Words, where they are no UTF-8, and what is said of it.
const NOT_UTF8: [(&[u8], &str, &str); 14] = [
    (b"\xff", "line 1, column 1", "the byte FF is not UTF-8"),
    (
        b"ab\ncd\xffe",
        "line 2, column 3",
        "the byte FF is not UTF-8",
    ),
    (
        b"ab\ncd\x80",
        "line 2, column 3",
        "the byte 80 is not UTF-8",
    ),
    (
        b"a\n\xe2\x82",
        "line 2, column 1",
        "the input ends within a letter, after E2 82",
    ),
    (
        b"a\nb\xf0",
        "line 2, column 2",
        "the input ends within a letter, after F0",
    ),
    (
        b"a\n\xe2\x28\xa1",
        "line 2, column 1",
        "the bytes E2 28 are not UTF-8",
    ),
    // Longer than they need be.
    (
        b"a\nb\xc0\xaf",
        "line 2, column 2",
        "the byte C0 is not UTF-8",
    ),
    (
        b"a\n\xe0\x80\xaf",
        "line 2, column 1",
        "the bytes E0 80 are not UTF-8",
    ),
    // A surrogate, and a code point over 10FFFF.
    (
        b"a\n\xed\xa0\x80",
        "line 2, column 1",
        "the bytes ED A0 are not UTF-8",
    ),
    (
        b"a\n\xf4\x90\x80\x80",
        "line 2, column 1",
        "the bytes F4 90 are not UTF-8",
    ),
    // Columns are letters, a CR LF is one newline, and a mark at the start is no letter.
    (
        b"\xc3\xa9\xe2\x82\xac\xff",
        "line 1, column 3",
        "the byte FF is not UTF-8",
    ),
    (
        b"a\r\nb\xff",
        "line 2, column 2",
        "the byte FF is not UTF-8",
    ),
    (b"a\rb\xff", "line 1, column 4", "the byte FF is not UTF-8"),
    (
        b"\xef\xbb\xbfa\xff",
        "line 1, column 2",
        "the byte FF is not UTF-8",
    ),
];

#[test]
fn says_where_bytes_are_not_utf8() {
    for (words, place, wrong) in NOT_UTF8 {
        run(&["text"], words).failed(1, "", &format!("{place}: {wrong}"));
    }
}

#[test]
fn writes_4096_letters() {
    for (letter, bytes) in [("a", 2), ("😀", 4), ("\n", 1), ("\r\n", 1), ("\r", 2)] {
        let tape = run(&["text"], letter.repeat(4096).as_bytes()).done();
        assert_eq!(tape.len(), 4096 * bytes, "{letter:?}");
        assert!(wrap(&tape, &mut Workspace::new(), 4).is_ok(), "{letter:?}");
    }
    let newline = "a".repeat(4095) + "\r\n";
    assert_eq!(
        run(&["text"], newline.as_bytes()).done().len(),
        2 * 4095 + 1
    );
    let marked = "\u{feff}".to_string() + &"a".repeat(4096);
    assert_eq!(run(&["text"], marked.as_bytes()).done().len(), 2 * 4096);
}

#[test]
fn says_where_a_letter_is_too_many() {
    let cases = [
        ("a".repeat(4097), "line 1, column 4097"),
        ("😀".repeat(4097), "line 1, column 4097"),
        ("a".repeat(4096) + "\n", "line 1, column 4097"),
        ("a".repeat(4096) + "\r\n", "line 1, column 4097"),
        ("ab\n".repeat(1365) + "cde", "line 1366, column 2"),
        ("\r\n".repeat(4096) + "a", "line 4097, column 1"),
        (
            "\u{feff}".to_string() + &"a".repeat(4097),
            "line 1, column 4097",
        ),
    ];
    for (words, place) in cases {
        let message = format!("{place}: {FULL}");
        run(&["text"], words.as_bytes()).failed(1, "", &message);
    }
    // What is wrong behind the letter too many is not reached.
    let words = [&[b'a'; 4097][..], b"\xff"].concat();
    run(&["text"], &words).failed(1, "", &format!("line 1, column 4097: {FULL}"));
}

#[test]
#[cfg(unix)]
fn ends_on_endless_input() {
    run_shell("text < /dev/zero").failed(1, "", &format!("line 1, column 4097: {FULL}"));
}

#[test]
fn waits_for_no_more_than_it_needs() {
    let full = vec![b'a'; 4096];
    for last in ["a", "\r", "\n", "€"] {
        let words = [&full, last.as_bytes()].concat();
        let message = format!("line 1, column 4097: {FULL}");
        run_open(&["text"], &words).failed(1, "", &message);
    }
    let message = "line 2, column 1: the bytes E2 28 are not UTF-8";
    run_open(&["text"], b"a\n\xe2\x28").failed(1, "", message);
}

#[test]
fn its_tapes_are_admitted_and_give_the_letters_back() {
    let every: String = (1..0x800).step_by(3).filter_map(char::from_u32).collect();
    let far = (0x800..=0x10_ffff)
        .step_by(0x1235)
        .filter_map(char::from_u32);
    let cases = [
        "Hello, world".to_string(),
        "one\ntwo\r\n\r\nfour \\ \\t\n\n\tfive".to_string(),
        "e\u{301} 'x' \"y\" \u{202e}z".to_string(),
        "€".repeat(4096),
        ["x", &every.replace(['\n', '\r'], ""), "x"].concat(),
        far.collect(),
    ];
    for words in cases {
        let tape = run(&["text"], words.as_bytes()).done();
        assert!(
            wrap(&tape, &mut Workspace::new(), 4096).is_ok(),
            "{words:?}"
        );
        let listed = run(&["lines", "--text", "--columns", "4096"], &tape).done();
        let listed = String::from_utf8(listed).expect("lines are UTF-8");
        // Blanks before a line's first word are no letters of it.
        let due: Vec<&str> = words.lines().map(|line| line.trim_start()).collect();
        assert_eq!(letters(&listed), due);
    }
}

/// The letters of each line that `lines --text` writes.
fn letters(listed: &str) -> Vec<String> {
    let lines = listed.lines().skip(1);
    lines
        .filter_map(|line| line.splitn(4, ' ').nth(3))
        .map(unescape)
        .collect()
}

fn unescape(text: &str) -> String {
    let mut parts = text.split('\\');
    let mut letters = parts.next().unwrap_or("").to_string();
    let mut backslash = false;
    for part in parts {
        if backslash || part.is_empty() {
            // Of two backslashes the part between them is empty, and the next one is plain.
            letters += if backslash { part } else { "\\" };
            backslash = !backslash;
        } else {
            letters += &escape(part);
        }
    }
    letters
}

/// What stands behind a backslash that begins an escape.
fn escape(part: &str) -> String {
    if let Some(rest) = part.strip_prefix('t') {
        return format!("\t{rest}");
    }
    let code = part
        .strip_prefix("u{")
        .and_then(|part| part.split_once('}'));
    let (code, rest) = code.expect("an escape");
    let code = u32::from_str_radix(code, 16).expect("a code point");
    format!("{}{rest}", char::from_u32(code).expect("a letter"))
}

//! `captions lines`.

use crate::run::run;

/// Document 01's example.
const EXAMPLE: &[u8] = b"\x02A\x02B\x02C\x02D\x02E\x02 \x02F\x05\x02G";

fn lines(words: &[&str], tape: &[u8]) -> String {
    let words = [&["lines"], words].concat();
    String::from_utf8(run(&words, tape).done()).expect("lines are UTF-8")
}

#[test]
fn writes_the_example() {
    let due = "lines 3\n0 4 4\n1 3 3\n2 1 1\n";
    assert_eq!(lines(&[], EXAMPLE), due);
    assert_eq!(lines(&["--columns", "4"], EXAMPLE), due);
    assert_eq!(lines(&[], b""), "lines 0\n");
}

#[test]
fn breaks_at_the_columns_asked_for() {
    let due = "lines 3\n0 5 5\n1 1 1\n2 1 1\n";
    assert_eq!(lines(&["--columns", "5"], EXAMPLE), due);
    assert_eq!(lines(&["--columns=5"], EXAMPLE), due);
    assert_eq!(lines(&["--columns", "3", "--columns", "5"], EXAMPLE), due);
    let one = lines(&["--columns", "1"], EXAMPLE);
    assert!(one.starts_with("lines 7\n0 1 1\n"), "{one}");
    assert_eq!(
        lines(&["--columns", "4096"], EXAMPLE),
        "lines 2\n0 7 7\n1 1 1\n"
    );
}

#[test]
fn writes_the_letters_too() {
    let due = "lines 3\n0 4 4 ABCD\n1 3 3 E F\n2 1 1 G\n";
    assert_eq!(lines(&["--text"], EXAMPLE), due);
    // Breaks and what a voice adds have numbers too, and a blank line has no letters.
    let tape = b"\x05\x06\x09\x02V\x00\x02a\x02b\x00\x00\x05\x05\x03\x20\xac";
    let due = "lines 4\n0 0 0 \n1 5 5 V: ab\n2 0 0 \n3 1 1 €\n";
    assert_eq!(lines(&["--text", "--columns", "9"], tape), due);
}

#[test]
fn writes_controls_as_escapes() {
    let tape = b"\x02A\x02\x09\x02B\x02\x01\x02\\\x02\x85\x02'\x02\x0d\x03\x03\x01\x02\x00";
    let due = "lines 1\n0 10 6 A\\tB\\u{1}\\\\\\u{85}'\\r\u{301}\\u{0}\n";
    assert_eq!(lines(&["--columns", "20", "--text"], tape), due);
}

#[test]
fn writes_a_refusal() {
    let message = "refused 3 at byte 1: the tape ends in the list that byte 0 opened";
    run(&["lines"], b"\x06").failed(1, "refused 3 1\n", message);
    run(&["lines", "--text"], b"\x06").failed(1, "refused 3 1\n", message);
    let message = "refused 1 at byte 2: 0C is not a command: commands are 00 to 0B";
    run(&["lines"], b"\x02A\x0c").failed(1, "refused 1 2\n", message);
    let message = "refused 10: the tape has more than 16384 bytes";
    run(&["lines"], &[0x01; 16_385]).failed(1, "refused 10 0\n", message);
}

#[test]
fn says_the_range_of_the_columns() {
    for columns in ["0", "4097", "4294967295"] {
        let message = format!("refused 8: --columns is {columns}, and its range is 1 to 4096");
        // The columns come before the tape.
        run(&["lines", "--columns", columns], b"\x06").failed(1, "refused 8 0\n", &message);
    }
}

#[test]
fn help_shows_where_burn_breaks_elsewhere() {
    let help = lines(&["--help"], b"");
    let help = help.split_whitespace().collect::<Vec<&str>>().join(" ");
    for said in [
        "the tape 02 58 02 20 02 41 08 FF FF FF 02 42 00 at 3 columns gives X and AB here",
        "with the default color 00FF00FF and as many columns, draws X A and B",
    ] {
        assert!(help.contains(said), "{said}");
    }
    // And so it is. Three columns are 24 pixels, and the other tapes have the breaks in them.
    let tape = b"\x02X\x02 \x02A\x08\xff\xff\xff\x02B\x00";
    let here = lines(&["--columns", "3", "--text"], tape);
    assert_eq!(here, "lines 2\n0 1 1 X\n1 2 2 AB\n");
    let burned = |color: &str, tape: &[u8]| {
        let size = ["burn", "--width", "24", "--height", "96"];
        run(&[&size[..], &["--default-color", color]].concat(), tape).done()
    };
    let broken_here = b"\x02X\x05\x02A\x08\xff\xff\xff\x02B\x00";
    assert!(burned("FFFFFFFF", tape) == burned("FFFFFFFF", broken_here));
    let broken_elsewhere = b"\x02X\x02 \x02A\x05\x08\xff\xff\xff\x02B\x00";
    assert!(burned("00FF00FF", tape) == burned("00FF00FF", broken_elsewhere));
    assert!(burned("00FF00FF", tape) != burned("00FF00FF", broken_here));
}

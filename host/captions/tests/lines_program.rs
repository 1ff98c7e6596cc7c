//! The proved program `lines`, as `rt` builds it, which breaks at four columns. `rt ci` runs it on
//! one tape, which is accepted; here are others, refused ones among them.

use std::io::Write;
use std::path::Path;
use std::process::{Command, Stdio};

const PROGRAM: &str = concat!(env!("CARGO_MANIFEST_DIR"), "/../../crates/lines/out/lines");

/// What it writes of a tape.
fn lines(tape: &[u8]) -> String {
    assert!(
        Path::new(PROGRAM).is_file(),
        "the proved program is not at {PROGRAM}: run `rt run` in crates/lines first"
    );
    let mut child = Command::new(PROGRAM)
        .stdin(Stdio::piped())
        .stdout(Stdio::piped())
        .stderr(Stdio::piped())
        .spawn()
        .expect("the program starts");
    // It need not read all.
    let _ = child.stdin.take().expect("a pipe").write_all(tape);
    let ran = child.wait_with_output().expect("the program ends");
    let [written, told] =
        [ran.stdout, ran.stderr].map(|bytes| String::from_utf8(bytes).expect("it writes UTF-8"));
    assert_eq!((ran.status.code(), told.as_str()), (Some(0), ""));
    written
}

#[test]
fn an_accepted_tape() {
    assert_eq!(lines(b""), "lines 0\n");
    // ABCDEFGH, a break and I: the break stands behind a full line, so that a blank one follows.
    let tape = b"\x02A\x02B\x02C\x02D\x02E\x02F\x02G\x02H\x05\x02I";
    assert_eq!(lines(tape), "lines 4\n0 4 4\n1 4 4\n2 0 0\n3 1 1\n");
    // A control is a letter without a column.
    let tape = b"\x02A\x02B\x02\x01\x02C\x02D\x02E";
    assert_eq!(lines(tape), "lines 2\n0 4 3\n1 2 2\n");
}

#[test]
fn refused_1() {
    assert_eq!(lines(b"\x0c"), "refused 1 0\n");
    assert_eq!(lines(b"\x02A\x0c"), "refused 1 2\n");
}

#[test]
fn refused_3_at_the_end_of_the_tape() {
    assert_eq!(lines(b"\x06"), "refused 3 1\n");
    assert_eq!(lines(b"\x02A\x09\x02B"), "refused 3 5\n");
}

#[test]
fn refused_10() {
    assert_eq!(lines(&[0x0B; 16_384]), "lines 0\n");
    assert_eq!(lines(&[0x0B; 16_385]), "refused 10 0\n");
    // The length is looked at before the tape, and more than a byte too many is refused alike.
    assert_eq!(lines(&[0x0C; 16_385]), "refused 10 0\n");
    assert_eq!(lines(&[0x0B; 20_000]), "refused 10 0\n");
}

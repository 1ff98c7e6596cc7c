//! `captions show`.

use crate::run::{run, run_open};
use captions::{Workspace, wrap};

/// The longest tape, of empty texts.
const LONGEST: [u8; 16_384] = [0x01; 16_384];

fn shown(tape: &[u8]) -> String {
    String::from_utf8(run(&["show"], tape).done()).expect("the listing is UTF-8")
}

#[test]
fn lists_all_twelve_commands() {
    let tape = b"\x09\x02A\x03\x20\xac\x00\x06\x07\x02 \x00\x00\x08\x0a\xff\x80\x0a\x01\
        \x04\x01\xf6\x00\x00\x05\x00\x0b\x00\x02i";
    let due = "      0  09           voice
      1  02 41          letter of the name U+0041 A
      3  03 20 AC       letter of the name U+20AC €
      6  00           end of the name, adds \": \"
      7  06             bold
      8  07               italic
      9  02 20              letter U+0020 space
     11  00               end of the list that byte 8 opened
     12  00             end of the list that byte 7 opened
     13  08 0A FF 80    color 0AFF80
     17  0A               plain group
     18  01                 empty text
     19  04 01 F6 00        letter U+1F600 😀
     23  00               end of the list that byte 17 opened
     24  05               break
     25  00             end of the list that byte 13 opened
     26  0B             time mark
     27  00           end of the list that byte 0 opened
     28  02 69        letter U+0069 i
";
    assert_eq!(shown(tape), due);
}

#[test]
fn shows_letters_that_can_be_seen() {
    let cases = [
        ("\x02\x41", "U+0041 A"),
        ("\x02\x27", "U+0027 '"),
        ("\x02\x22", "U+0022 \""),
        ("\x02\\", "U+005C \\"),
        ("\x02\x7e", "U+007E ~"),
        ("\x02\x00", "U+0000"),
        ("\x02\x1b", "U+001B"),
        ("\x02\x7f", "U+007F"),
        ("\x02\x09", "U+0009 tab"),
        ("\x02\x0a", "U+000A, which acts as a break"),
        ("\x02\x0d", "U+000D"),
        // A mark that needs a letter before it, and one that turns the rest of the line around.
        ("\x03\x03\x01", "U+0301"),
        ("\x03\x20\x2e", "U+202E"),
        ("\x04\x10\x00\x00", "U+100000"),
    ];
    for (tape, words) in cases {
        let due = format!("letter {words}\n");
        assert!(shown(tape.as_bytes()).ends_with(&due), "{words}");
    }
}

#[test]
fn says_that_a_tape_is_empty() {
    assert_eq!(shown(b""), "the tape is empty\n");
}

/// Holds the listing to so many lines, of which the last points at the fault, and to the message.
#[track_caller]
fn points(tape: &[u8], lines: usize, last: &str, message: &str) {
    let refusal = wrap(tape, &mut Workspace::new(), 4).expect_err("a refused tape");
    let due = format!(
        "refused {} at byte {}: ",
        refusal.cause.number(),
        refusal.place
    );
    assert!(message.starts_with(&due), "{refusal}");
    let ran = run(&["show"], tape);
    let listing = ran.text().to_string();
    assert_eq!(listing.lines().count(), lines, "{listing}");
    assert_eq!(listing.lines().last(), Some(last));
    ran.failed(1, &listing, message);
}

#[test]
fn points_at_an_unknown_command() {
    let due = "      0  06           bold
      1  02 41          letter U+0041 A
>     3  0C           refused 1: 0C is not a command: commands are 00 to 0B
";
    let message = "refused 1 at byte 3: 0C is not a command: commands are 00 to 0B";
    run(&["show"], b"\x06\x02A\x0c\x02B").failed(1, due, message);
    points(
        b"\x09\xff",
        2,
        ">     1  FF           refused 1: FF is not a command: commands are 00 to 0B",
        "refused 1 at byte 1: FF is not a command: commands are 00 to 0B",
    );
}

#[test]
fn points_at_missing_operands() {
    points(
        b"\x05\x02",
        2,
        ">     1  02           refused 2: 02 has 1 operand byte, and 1 is missing",
        "refused 2 at byte 1: 02 has 1 operand byte, and 1 is missing",
    );
    points(
        b"\x04\x01",
        1,
        ">     0  04 01        refused 2: 04 has 3 operand bytes, and 2 are missing",
        "refused 2 at byte 0: 04 has 3 operand bytes, and 2 are missing",
    );
    points(
        b"\x06\x08\x01\x02",
        2,
        ">     1  08 01 02     refused 2: 08 has 3 operand bytes, and 1 is missing",
        "refused 2 at byte 1: 08 has 3 operand bytes, and 1 is missing",
    );
}

#[test]
fn points_at_an_end_of_nothing_and_at_the_end_of_the_tape() {
    points(
        b"\x06\x00\x00\x05",
        3,
        ">     2  00           refused 3: a 00 in the outer list",
        "refused 3 at byte 2: a 00 in the outer list",
    );
    points(
        b"\x06\x00\x05\x07\x08\x01\x02\x03\x0a\x00",
        8,
        ">    10               refused 3: the tape ends in the list that byte 4 opened",
        "refused 3 at byte 10: the tape ends in the list that byte 4 opened",
    );
    points(
        b"\x02A\x09\x02B\x00",
        5,
        ">     6               refused 3: the tape ends in the list that byte 2 opened",
        "refused 3 at byte 6: the tape ends in the list that byte 2 opened",
    );
    points(
        b"\x06\x09\x02B",
        4,
        ">     4               refused 3: the tape ends in the name of the voice at byte 1",
        "refused 3 at byte 4: the tape ends in the name of the voice at byte 1",
    );
}

#[test]
fn points_at_a_code_point_that_is_no_letter() {
    points(
        b"\x03\xdf\xff",
        1,
        ">     0  03 DF FF     refused 4: the code point DFFF is a surrogate",
        "refused 4 at byte 0: the code point DFFF is a surrogate",
    );
    points(
        b"\x05\x04\x11\x00\x00",
        2,
        ">     1  04 11 00 00  refused 4: the code point 110000 is over 10FFFF",
        "refused 4 at byte 1: the code point 110000 is over 10FFFF",
    );
}

#[test]
fn points_at_a_list_too_deep() {
    let tape = [[0x0a; 16].as_slice(), &[0x08, 1]].concat();
    points(
        &tape,
        17,
        ">    16  08 01        refused 5: the list that 08 opens would lie deeper than 16 lists",
        "refused 5 at byte 16: the list that 08 opens would lie deeper than 16 lists",
    );
}

#[test]
fn points_at_a_letter_too_many() {
    let full = vec![0x05; 4096];
    points(
        &[&full[..], b"\x02A"].concat(),
        4097,
        ">  4096  02 41        refused 6: the cue would have 4097 letters, and 4096 are the most",
        "refused 6 at byte 4096: the cue would have 4097 letters, and 4096 are the most",
    );
    let message =
        "with the \": \" of the name the cue would have 4098 letters, and 4096 are the most";
    points(
        &[&full[..4094], b"\x09\x02A\x02B\x00"].concat(),
        4098,
        &format!(">  4099  00           refused 6: {message}"),
        &format!("refused 6 at byte 4099: {message}"),
    );
}

#[test]
fn points_at_what_is_no_letter_of_a_name() {
    let message = "08 is neither a letter nor 00, in the name of the voice at byte 1";
    points(
        b"\x06\x09\x02A\x08\x01\x02\x03\x00\x00",
        4,
        &format!(">     4  08 01 02 03  refused 7: {message}"),
        &format!("refused 7 at byte 4: {message}"),
    );
}

#[test]
fn lists_no_tape_that_is_too_long() {
    assert_eq!(shown(&LONGEST).lines().count(), LONGEST.len());
    let message = "refused 10: the tape has more than 16384 bytes";
    let longer = [&LONGEST[..], b"\x01"].concat();
    run(&["show"], &longer).failed(1, "", message);
    // It waits for no more than the byte too many.
    run_open(&["show"], &longer).failed(1, "", message);
}

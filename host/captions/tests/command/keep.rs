//! `captions keep`.

use crate::run::run;

const EXAMPLES: &str = include_str!("../../../../deposit/examples.txt");

/// The deposit's examples of whole pictures that are too large to be shown: their settings, strokes and
/// sum as the command writes them, and their tape.
fn examples() -> Vec<(String, Vec<u8>)> {
    let blocks = EXAMPLES.split("\n\n").map(|block| {
        let lines = block.lines().filter_map(|line| line.strip_prefix("    "));
        lines.collect::<Vec<_>>()
    });
    let large = blocks.filter(|lines| lines.iter().any(|line| line.starts_with("settings 640 ")));
    large.map(|lines| (kept(&lines), tape(&lines))).collect()
}

fn kept(lines: &[&str]) -> String {
    let kept = lines.iter().filter(|line| !line.starts_with("tape"));
    kept.fold(String::new(), |text, line| text + line + "\n")
}

fn tape(lines: &[&str]) -> Vec<u8> {
    let tapes = lines.iter().filter_map(|line| line.strip_prefix("tape "));
    let bytes = tapes.flat_map(|line| line.split(' '));
    let byte = |byte| u8::from_str_radix(byte, 16).expect("a byte is hexadecimal");
    bytes.map(byte).collect()
}

#[test]
fn keeps_what_the_deposit_has() {
    let words = [
        "",
        "--default-color FFFFFF80 --outline-color 00204040 --line-height 30 --bottom-margin 300 \
         --outline 2 --align right",
    ];
    let examples = examples();
    assert_eq!(examples.len(), words.len());
    for (words, (kept, tape)) in words.iter().zip(examples) {
        let words: Vec<&str> = words.split_whitespace().collect();
        let written = run(&[&["keep"], &words[..]].concat(), &tape);
        assert_eq!(written.text(), kept);
        written.done();
    }
}

#[test]
fn keeps_nothing_of_a_clear_picture() {
    let words = "keep --width 4096 --height 4096 --outline 0";
    let words: Vec<&str> = words.split(' ').collect();
    let due = "settings 4096 4096 FFFFFFFF 000000FF 20 24 0 0 0 8 2 2\nstrokes 0\nsum 0\n";
    assert_eq!(run(&words, b"").text(), due);
}

/// Each stands in its place, and strokes are counted by the cap: a letter with 1 + 8 · 3.
#[test]
fn keeps_the_house_settings_as_the_last_three() {
    let words = "keep --width 0 --outline 9 --side-margin 255 --slant 7 --outline-cap 3";
    let words: Vec<&str> = words.split(' ').collect();
    let due = "settings 0 360 FFFFFFFF 000000FF 20 24 9 0 0 255 7 3\nstrokes 25\nsum 0\n";
    assert_eq!(run(&words, b"\x02A").text(), due);
}

#[test]
fn refuses_as_burn_does() {
    for (words, tape) in [
        (&["--width", "5000"][..], &b"\x02A"[..]),
        (&["--slant", "9"], b"\x02A"),
        (&[], b"\x06"),
    ] {
        let [burn, keep] = ["burn", "keep"].map(|name| run(&[&[name], words].concat(), tape));
        assert_eq!((keep.status, &keep.out), (1, &Vec::new()));
        assert_eq!(keep.error, burn.error);
    }
}

#[test]
fn has_the_settings_alone() {
    let message = "keep has no option \"--stripes\"; see captions keep --help";
    run(&["keep", "--stripes", "8"], b"").failed(2, "", message);
}

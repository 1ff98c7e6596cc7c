//! Inputs that cannot be read, and outputs that cannot be written.
#![cfg(unix)]

use crate::run::{run, run_shell, start};
use std::io::{Read, Write};

const SUBCOMMANDS: [&str; 4] = ["text", "show", "lines", "burn"];

#[test]
fn each_subcommand_has_each_status() {
    for subcommand in SUBCOMMANDS {
        assert_eq!(run(&[subcommand], b"").status, 0);
        // No UTF-8, and no command.
        assert_eq!(run(&[subcommand], b"\xff").status, 1);
        assert_eq!(run(&[subcommand, "--bogus"], b"").status, 2);
        assert_eq!(run_shell(&format!("{subcommand} < /")).status, 3);
    }
}

#[test]
fn a_folder_is_no_input() {
    for subcommand in SUBCOMMANDS {
        let ran = run_shell(&format!("{subcommand} < /"));
        assert!(
            ran.error
                .starts_with("captions: cannot read standard input: ")
        );
        assert_eq!(
            (ran.status, ran.text(), ran.error.lines().count()),
            (3, "", 1)
        );
    }
}

#[test]
#[cfg(target_os = "linux")]
fn a_closed_input_is_an_empty_one() {
    for subcommand in SUBCOMMANDS {
        let empty = run_shell(&format!("{subcommand} < /dev/null")).done();
        assert_eq!(run_shell(&format!("{subcommand} <&-")).done(), empty);
        // Open for writing alone.
        let ran = run_shell(&format!("{subcommand} 0> /dev/null"));
        assert!(
            ran.error
                .starts_with("captions: cannot read standard input: ")
        );
        assert_eq!(ran.status, 3);
    }
}

#[test]
fn ends_quietly_where_nobody_reads() {
    for words in [
        &["text"][..],
        &["show"],
        &["lines"],
        &["burn"],
        &["burn", "--stripes", "99"],
    ] {
        let mut child = start(words);
        drop(child.stdout.take());
        let mut input = child.stdin.take().expect("a pipe");
        input.write_all(b"\x02A\x02B").expect("it reads");
        drop(input);
        let mut error = String::new();
        let messages = child
            .stderr
            .take()
            .expect("a pipe")
            .read_to_string(&mut error);
        messages.expect("messages are UTF-8");
        let status = child.wait().expect("it ends").code();
        assert_eq!((status, error.as_str()), (Some(3), ""), "{words:?}");
    }
}

#[test]
#[cfg(target_os = "linux")]
fn says_that_the_output_takes_no_more() {
    let help = ["--help", "--version", "burn --help"];
    let subcommands = ["show", "lines", "burn", "burn --stripes 99"];
    for words in help.into_iter().chain(subcommands) {
        let ran = run_shell(&format!("{words} < /dev/null > /dev/full"));
        assert!(
            ran.error
                .starts_with("captions: cannot write standard output: "),
            "{words}"
        );
        assert_eq!((ran.status, ran.error.lines().count()), (3, 1), "{words}");
    }
    let ran = run_shell("text > /dev/full << END\nwords\nEND\n");
    assert!(
        ran.error
            .starts_with("captions: cannot write standard output: ")
    );
    assert_eq!(ran.status, 3);
    // Open for reading alone.
    let ran = run_shell("show 1< /dev/null");
    assert!(
        ran.error
            .starts_with("captions: cannot write standard output: ")
    );
    assert_eq!(ran.status, 3);
}

#[test]
#[cfg(target_os = "linux")]
fn keeps_its_status_where_messages_go_nowhere() {
    for nowhere in ["2>&-", "2> /dev/full"] {
        assert_eq!(run_shell(nowhere).status, 2);
        assert_eq!(run_shell(&format!("text < /dev/zero {nowhere}")).status, 1);
        assert_eq!(run_shell(&format!("show < / {nowhere}")).status, 3);
        assert_eq!(run_shell(&format!("show > /dev/full {nowhere}")).status, 3);
    }
}

//! Runs the command.

use std::io::Write;
use std::process::{Child, Command, Output, Stdio};
use std::sync::mpsc::{self, RecvTimeoutError};
use std::thread;
use std::time::Duration;

/// How long the command may take where it has to end by itself.
const LONG: Duration = Duration::from_secs(20);

pub struct Ran {
    pub status: i32,
    pub out: Vec<u8>,
    pub error: String,
}

impl Ran {
    /// Each message begins with the command's name.
    fn new(output: Output) -> Ran {
        let error = String::from_utf8(output.stderr).expect("messages are UTF-8");
        let named = error.lines().all(|line| line.starts_with("captions: "));
        assert!(named, "{error}");
        Ran {
            status: output.status.code().expect("it ends by itself"),
            out: output.stdout,
            error,
        }
    }

    pub fn text(&self) -> &str {
        str::from_utf8(&self.out).expect("the output is UTF-8")
    }

    /// What it wrote, where it did what it was asked.
    #[track_caller]
    pub fn done(self) -> Vec<u8> {
        assert_eq!((self.status, self.error.as_str()), (0, ""));
        self.out
    }

    /// Holds it to a status, an output and a message, which is without the command's name.
    #[track_caller]
    pub fn failed(self, status: i32, out: &str, message: &str) {
        assert_eq!(self.error, format!("captions: {message}\n"));
        assert_eq!((self.status, self.text()), (status, out));
    }
}

pub fn command(words: &[&str]) -> Command {
    let mut command = Command::new(env!("CARGO_BIN_EXE_captions"));
    command.args(words);
    command
}

pub fn start(words: &[&str]) -> Child {
    let mut command = command(words);
    command
        .stdin(Stdio::piped())
        .stdout(Stdio::piped())
        .stderr(Stdio::piped());
    command.spawn().expect("the command starts")
}

pub fn run(words: &[&str], input: &[u8]) -> Ran {
    let mut child = start(words);
    // It need not read all.
    let _ = child.stdin.take().expect("a pipe").write_all(input);
    Ran::new(ended(child))
}

/// Runs it on an input that gives these bytes and then neither more nor an end.
pub fn run_open(words: &[&str], input: &[u8]) -> Ran {
    let mut child = start(words);
    let mut pipe = child.stdin.take().expect("a pipe");
    let _ = pipe.write_all(input);
    let output = ended(child);
    drop(pipe);
    Ran::new(output)
}

/// What it wrote. One that does not end by itself is ended, and then has no status.
fn ended(child: Child) -> Output {
    let number = child.id().to_string();
    let (done, waits) = mpsc::channel::<()>();
    let watch = thread::spawn(move || {
        if waits.recv_timeout(LONG) == Err(RecvTimeoutError::Timeout) {
            let _ = Command::new("kill").arg(number).status();
        }
    });
    let output = child.wait_with_output().expect("the command ends");
    drop(done);
    watch.join().expect("the watch ends");
    output
}

/// Runs it by a shell, as `captions` followed by these words.
pub fn run_shell(words: &str) -> Ran {
    let script = format!("exec \"$0\" {words}");
    let shell = ["-c", &script, env!("CARGO_BIN_EXE_captions")];
    let mut command = Command::new("sh");
    command.args(shell).stdin(Stdio::null());
    Ran::new(command.output().expect("the shell runs"))
}

//! Where results and messages go, and the exit status.

use std::fs::File;
use std::io::{self, ErrorKind, Write};
use std::os::fd::AsFd;
use std::process::ExitCode;

pub const STATUSES: &str = "\
Exit status: 0 done; 1 refused, or words that cannot be written; 2 wrong usage;
3 the input could not be read, or the output not written.
";

/// Why the command did not do what it was asked.
pub enum Failure {
    /// The library refused, or the words cannot be written.
    Refused(String),
    Usage(String),
    Input(io::Error),
    Output(io::Error),
}

pub type Outcome = Result<(), Failure>;

impl Failure {
    pub fn status(&self) -> ExitCode {
        ExitCode::from(match self {
            Failure::Refused(_) => 1,
            Failure::Usage(_) => 2,
            Failure::Input(_) | Failure::Output(_) => 3,
        })
    }

    /// Writes a line on standard error; none where the reader of the output has gone away.
    pub fn report(&self) {
        match self {
            Failure::Refused(words) | Failure::Usage(words) => message(words),
            Failure::Input(error) => message(&format!("cannot read standard input: {error}")),
            Failure::Output(error) if error.kind() == ErrorKind::BrokenPipe => {}
            Failure::Output(error) => message(&format!("cannot write standard output: {error}")),
        }
    }
}

fn message(words: &str) {
    // Where standard error takes nothing there is nobody left to tell.
    let _ = io::stderr().write_all(format!("captions: {words}\n").as_bytes());
}

/// Writes to standard output, past the buffer of `io::stdout`, which takes an output that is not
/// open for writing as one that takes everything.
pub fn write(bytes: &[u8]) -> Outcome {
    let opened = io::stdout().as_fd().try_clone_to_owned().map(File::from);
    opened
        .and_then(|mut output| output.write_all(bytes).and_then(|()| output.flush()))
        .map_err(Failure::Output)
}

//! Writes `deposit/definitions.txt`, or says whether it is as the definitions are.

use std::env;
use std::fs;
use std::io::{self, Write};
use std::path::{Path, PathBuf};
use std::process::ExitCode;

const USAGE: &str = "usage: tools/deposit [--check]";

fn main() -> ExitCode {
    let words: Vec<_> = env::args_os().skip(1).collect();
    let done = match words.as_slice() {
        [] => write(&repository()),
        [word] if word == "--check" => deposit::check(&repository()),
        _ => return end(USAGE, 2),
    };
    match done {
        Ok(()) => ExitCode::SUCCESS,
        Err(fault) => end(&fault, 1),
    }
}

fn repository() -> PathBuf {
    Path::new(env!("CARGO_MANIFEST_DIR")).join("../..")
}

fn write(root: &Path) -> Result<(), String> {
    let text = deposit::gather(root)?;
    let to = root.join(deposit::FILE);
    fs::write(&to, text).map_err(|fault| format!("{} cannot be written: {fault}", deposit::FILE))
}

fn end(message: &str, status: u8) -> ExitCode {
    // Where standard error is closed the status tells it alone.
    let _ = writeln!(io::stderr(), "{message}");
    ExitCode::from(status)
}

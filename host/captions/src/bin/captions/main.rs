//! The command `captions`: words as a tape, and a tape as a listing, as lines, as a frame or as what an
//! archive keeps beside it.

mod args;
mod burn;
mod fault;
mod hex;
mod input;
mod keep;
mod lines;
mod options;
mod output;
mod progress;
mod show;
mod stripes;
mod tape;
mod text;

use output::{Failure, Outcome};
use std::env;
use std::process::ExitCode;

const USAGE: &str =
    "usage: captions text|show|lines|burn|keep [options] < input > output; see captions --help";

const HELP: &str = "\
usage: captions text                         < words.txt > cue.tape
       captions show                         < cue.tape
       captions lines [--columns L] [--text] < cue.tape
       captions burn [options]               < cue.tape > frame.pam
       captions keep [options]               < cue.tape

  text     writes words, UTF-8, as a tape
  show     lists the commands of a tape, and points at its first fault
  lines    writes how a tape is broken into lines
  burn     draws the frame of a tape
  keep     writes what an archive keeps beside a tape

`captions SUBCOMMAND --help` says more of each, and `captions --version` gives
the version.

";

type Subcommand = fn(&[String]) -> Outcome;

const SUBCOMMANDS: [(&str, Subcommand); 5] = [
    ("text", text::command),
    ("show", show::command),
    ("lines", lines::command),
    ("burn", burn::command),
    ("keep", keep::command),
];

fn main() -> ExitCode {
    let outcome = args::words(env::args_os().skip(1)).and_then(|words| run(&words));
    match outcome {
        Ok(()) => ExitCode::SUCCESS,
        Err(failure) => {
            failure.report();
            failure.status()
        }
    }
}

fn run(words: &[String]) -> Outcome {
    let Some((first, rest)) = words.split_first() else {
        return Err(Failure::Usage(USAGE.to_string()));
    };
    match first.as_str() {
        "help" | "--help" | "-h" => help(rest),
        "--version" => version(rest),
        name => subcommand(name)?(rest),
    }
}

fn subcommand(name: &str) -> Result<Subcommand, Failure> {
    let found = SUBCOMMANDS.iter().find(|(known, _)| *known == name);
    let (_, subcommand) = found.ok_or_else(|| {
        let what = if name.starts_with('-') {
            "option"
        } else {
            "subcommand"
        };
        args::usage("", &format!("there is no {what} {name:?}"))
    })?;
    Ok(*subcommand)
}

fn help(rest: &[String]) -> Outcome {
    match rest {
        [_, more, ..] => Err(args::extra("", more)),
        [name] if !args::asks_help(rest) => subcommand(name)?(&["--help".to_string()]),
        _ => output::write(format!("{HELP}{}", output::STATUSES).as_bytes()),
    }
}

fn version(rest: &[String]) -> Outcome {
    match rest {
        [] => output::write(concat!("captions ", env!("CARGO_PKG_VERSION"), "\n").as_bytes()),
        [more, ..] => Err(args::extra("", more)),
    }
}

//! Compares the proved crates with the original that they were carried over from.

mod args;
mod count;
mod curly;
mod digest;
mod draw;
mod fenced;
mod font;
mod hex;
mod house;
mod inkless;
mod proved;
mod random;
mod refusal;
mod sample;
mod stripes;
mod tape;
mod timing;
mod work;
mod wrap;

use args::{Command, Extent, USAGE};
use reference::Original;
use std::env;
use std::ffi::OsString;
use std::io::{self, Write};
use std::process::ExitCode;

fn main() -> ExitCode {
    let words: Result<Vec<String>, OsString> =
        env::args_os().skip(1).map(OsString::into_string).collect();
    let Some(command) = words.ok().and_then(|words| args::parse(&words)) else {
        eprintln!("{USAGE}");
        return ExitCode::from(2);
    };
    let Some(original) = reference::original() else {
        eprintln!(
            "nothing was compared: the original's font.rs and compositor.rs were not in {} when \
             this program was built (CAPTIONS_RUST names another folder)",
            reference::LOOKED_IN
        );
        return ExitCode::from(2);
    };
    match command {
        Command::Compare(extent) => compare(&original, extent),
        Command::Specimen => write(font::specimen(&original).as_bytes()),
        Command::Sample => write(&tape::sample::tapes()),
        Command::SampleAnswers => write(tape::sample::answers(&original).as_bytes()),
        Command::LinesSample => write(&wrap::sample::entries()),
        Command::LinesSampleAnswers => write(wrap::sample::answers(&original).as_bytes()),
        Command::DrawSample => {
            let entries = [draw::sample::entries(), work::sample::entries(&original)];
            write(&entries.concat())
        }
        Command::DrawSampleAnswers => {
            let answers = draw::sample::answers(&original) + &work::sample::answers(&original);
            write(answers.as_bytes())
        }
        Command::Speed => {
            let tables = tape::speed::table(&original)
                + &wrap::speed::table(&original)
                + &draw::speed::tables(&original)
                + &work::speed::tables();
            write(tables.as_bytes())
        }
    }
}

fn compare(original: &Original, extent: Extent) -> ExitCode {
    let seed = extent.seed;
    println!("the original stands in {}", reference::LOOKED_IN);
    println!("seed {seed}");
    let mut counts = font::compare(original, seed, extent.pictures);
    counts.extend(tape::compare(original, seed, extent.tapes));
    counts.extend(wrap::compare(original, seed, extent.cues));
    counts.extend(draw::compare(original, seed, extent.frames));
    counts.extend(work::compare(original, seed, extent.jobs));
    counts.extend(house::compare(original, seed, extent.house_frames));
    counts.extend(stripes::compare(original, seed, extent.stripe_jobs));
    let (mut passed, mut failed) = (0, 0);
    for count in &counts {
        count.show();
        passed += count.passed;
        failed += count.failed;
    }
    println!("{passed} passed, {failed} failed");
    if failed == 0 && passed > 0 {
        ExitCode::SUCCESS
    } else {
        ExitCode::FAILURE
    }
}

fn write(bytes: &[u8]) -> ExitCode {
    match io::stdout().write_all(bytes) {
        Ok(()) => ExitCode::SUCCESS,
        Err(error) => {
            eprintln!("cannot write: {error}");
            ExitCode::FAILURE
        }
    }
}

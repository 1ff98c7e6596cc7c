//! `captions burn`: the frame of a tape.

use crate::options::{CHOICES, Options};
use crate::output::{self, Failure, Outcome};
use crate::progress::Progress;
use crate::{args, fault, input, stripes};
use captions::{Cause, Job, Refusal, Settings, Workspace, draw};

const ABOUT: &str = "\
usage: captions burn [options] < cue.tape > frame.pam

Draws the cue of a tape on a clear frame, and writes it as PAM: P7, RGB_ALPHA, a
byte a channel. Colors are blended into clear black: those of translucent pixels
come multiplied by their alpha. The frame is the same whether it is drawn whole
or in stripes.

An option is `--name VALUE` or `--name=VALUE`; of two the last counts. A color
may have a # before it, and RRGGBB has alpha FF.
";

pub fn command(words: &[String]) -> Outcome {
    if args::asks_help(words) {
        return output::write(args::help(ABOUT, &CHOICES).as_bytes());
    }
    let mut options = Options::new();
    args::parse("burn", &CHOICES, words, &mut options)?;
    if let Some(wrong) = clash(&options) {
        return Err(args::usage("burn", wrong));
    }
    let (_, picture) = frame(&options)?;
    output::write(&pam(&options.settings, &picture))
}

/// What is wrong with options that do not go together.
fn clash(options: &Options) -> Option<&'static str> {
    let asked = [options.stripes.is_some(), options.stripe_ends.is_some()];
    match (asked, options.budget) {
        ([true, true], _) => Some("--stripes and --stripe-ends cannot both be given"),
        ([false, false], Some(_)) => Some("--budget needs --stripes or --stripe-ends"),
        _ => None,
    }
}

/// How many strokes the cue of the tape has that is read, and its picture.
pub fn frame(options: &Options) -> Result<(u32, Vec<u8>), Failure> {
    let tape = input::tape()?;
    let mut picture = options.settings.new_picture();
    let drawn = burn(options, &tape, &mut picture);
    let strokes = drawn.map_err(|refusal| refused(options, &tape, refusal))?;
    Ok((strokes, picture))
}

fn burn(options: &Options, tape: &[u8], picture: &mut [u8]) -> captions::Result<u32> {
    let mut workspace = Workspace::new();
    let Some(asked) = stripes::asked(options) else {
        return draw(&options.settings, tape, &mut workspace, picture);
    };
    let stripes = asked.map_err(|unfit| {
        // Settings and lengths come before stripes, as in Open; Draw says what is wrong with them.
        let drawn = draw(&options.settings, tape, &mut workspace, picture).err();
        drawn
            .filter(|refusal| !refusal.cause.is_in_tape())
            .unwrap_or(unfit)
    })?;
    let mut job = Job::open(&options.settings, tape, &mut workspace, picture, &stripes)?;
    let budget = options.budget.unwrap_or(u32::MAX);
    let mut progress = Progress::new();
    let done = work(&mut job, &mut workspace, budget, &mut progress);
    progress.clear();
    done.map(|()| job.total())
}

/// Does all strokes, stripe by stripe from the top; the budget is 1 at least, so that each Work does
/// some.
fn work(
    job: &mut Job,
    workspace: &mut Workspace,
    budget: u32,
    progress: &mut Progress,
) -> captions::Result<()> {
    let mut stripe = 0;
    while stripe < job.stripes() {
        if job.done(stripe) < job.total() {
            job.work(workspace, stripe, budget)?;
        } else {
            stripe += 1;
        }
        progress.show(|| line(job, stripe));
    }
    Ok(())
}

/// How far a job has come that has finished the stripes before this one.
fn line(job: &Job, stripe: u32) -> String {
    let [total, stripes] = [job.total(), job.stripes()].map(u64::from);
    let done = u64::from(stripe) * total + u64::from(job.done(stripe));
    let percent = done * 100 / (total * stripes).max(1);
    format!("captions: {stripe} of {stripes} stripes, {percent}%")
}

fn refused(options: &Options, tape: &[u8], refusal: Refusal) -> Failure {
    match refusal.cause {
        Cause::OutOfRange => fault::with_words(refusal, &options.out_of_range().join("; ")),
        Cause::StripesUnfit => fault::with_words(refusal, &stripes::unfit(options)),
        _ => fault::failure(tape, refusal),
    }
}

fn pam(settings: &Settings, picture: &[u8]) -> Vec<u8> {
    let Settings { width, height, .. } = settings;
    let header = format!(
        "P7\nWIDTH {width}\nHEIGHT {height}\nDEPTH 4\nMAXVAL 255\nTUPLTYPE RGB_ALPHA\nENDHDR\n"
    );
    [header.as_bytes(), picture].concat()
}

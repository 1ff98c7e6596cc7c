//! The words of the command line.

pub const USAGE: &str = "\
usage: compare [--pictures N] [--tapes N] [--cues N] [--frames N] [--jobs N] [--house-frames N]
               [--stripe-jobs N] [--seed S]
                                compare the proved crates with the original
       compare specimen         write what the original draws for U+0000 to U+0100
       compare sample           write the tapes that the program `letters` reads
       compare sample-answers   write what the original makes of them
       compare lines-sample     write the limits and tapes that the program `lines_sample` reads
       compare lines-sample-answers
                                write what the original makes of them
       compare draw-sample      write the calls that the program `replay` makes: Draw, Open and Work
       compare draw-sample-answers
                                write what the original draws by them
       compare speed            write how long both take, and the ratio; and Open and Work alone";

#[derive(Debug, PartialEq)]
pub enum Command {
    Compare(Extent),
    Specimen,
    Sample,
    SampleAnswers,
    LinesSample,
    LinesSampleAnswers,
    DrawSample,
    DrawSampleAnswers,
    Speed,
}

/// How many random cases of each kind are compared, and the seed that makes them.
#[derive(Clone, Copy, Debug, PartialEq)]
pub struct Extent {
    pub pictures: u64,
    pub tapes: u64,
    pub cues: u64,
    pub frames: u64,
    pub jobs: u64,
    pub house_frames: u64,
    pub stripe_jobs: u64,
    pub seed: u64,
}

/// The command that the words ask for, or `None` where they are none.
pub fn parse(words: &[String]) -> Option<Command> {
    match words {
        [word] if word == "specimen" => return Some(Command::Specimen),
        [word] if word == "sample" => return Some(Command::Sample),
        [word] if word == "sample-answers" => return Some(Command::SampleAnswers),
        [word] if word == "lines-sample" => return Some(Command::LinesSample),
        [word] if word == "lines-sample-answers" => return Some(Command::LinesSampleAnswers),
        [word] if word == "draw-sample" => return Some(Command::DrawSample),
        [word] if word == "draw-sample-answers" => return Some(Command::DrawSampleAnswers),
        [word] if word == "speed" => return Some(Command::Speed),
        _ => {}
    }
    let mut extent = Extent {
        pictures: 200_000,
        tapes: 200_000,
        cues: 200_000,
        frames: 200_000,
        jobs: 50_000,
        house_frames: 100_000,
        stripe_jobs: 50_000,
        seed: 1,
    };
    let (pairs, rest) = words.as_chunks::<2>();
    for [name, value] in pairs {
        match name.as_str() {
            "--pictures" => extent.pictures = value.parse().ok()?,
            "--tapes" => extent.tapes = value.parse().ok()?,
            "--cues" => extent.cues = value.parse().ok()?,
            "--frames" => extent.frames = value.parse().ok()?,
            "--jobs" => extent.jobs = value.parse().ok()?,
            "--house-frames" => extent.house_frames = value.parse().ok()?,
            "--stripe-jobs" => extent.stripe_jobs = value.parse().ok()?,
            "--seed" => extent.seed = value.parse().ok()?,
            _ => return None,
        }
    }
    rest.is_empty().then_some(Command::Compare(extent))
}

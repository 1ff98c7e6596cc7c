//! What a call says where it does not do what it is asked.

use std::error::Error;
use std::fmt::{self, Display, Formatter};

/// What a call gives: its answer, or a refusal.
pub type Result<T> = std::result::Result<T, Refusal>;

/// Why a call is refused.
#[derive(Clone, Copy, Debug, PartialEq, Eq)]
pub enum Cause {
    /// 1: a command over 0B.
    UnknownCommand,
    /// 2: the tape ends before a command's operands do.
    OperandsMissing,
    /// 3: a 00 in the outer list, or the tape ends in a list or a voice's name.
    Unbalanced,
    /// 4: a code point that is a surrogate or over 10FFFF.
    NotAScalar,
    /// 5: a list within 16 lists.
    TooDeep,
    /// 6: over [`LETTERS_MAX`](crate::LETTERS_MAX).
    TooManyLetters,
    /// 7: a known command within a name that is neither a letter nor 00.
    NotInAName,
    /// 8: a setting or the column limit is outside its range.
    OutOfRange,
    /// 9: the picture's buffer has under width · height · 4 bytes.
    PictureTooShort,
    /// 10: the tape has over [`TAPE_MAX`](crate::TAPE_MAX) bytes.
    TapeTooLong,
    /// 11: the workspace has under [`WORKSPACE_BYTES`](crate::WORKSPACE_BYTES).
    WorkspaceTooShort,
    /// 12: Work on a stripe that the picture does not have.
    NoSuchStripe,
    /// 13: over [`STRIPES_MAX`](crate::STRIPES_MAX) stripes, or ends that do not rise from above 0 to
    /// the picture's height.
    StripesUnfit,
    /// 14: a counter of the record is over the cue's strokes, or not 0 past the last stripe.
    CountersUnsound,
    /// A number that this wrapper does not know: none of 1 to 14. Its library gives no such.
    Unknown(u32),
}

impl Cause {
    /// All that are known, in the order of their numbers, which count from 1.
    pub const ALL: [Cause; 14] = [
        Cause::UnknownCommand,
        Cause::OperandsMissing,
        Cause::Unbalanced,
        Cause::NotAScalar,
        Cause::TooDeep,
        Cause::TooManyLetters,
        Cause::NotInAName,
        Cause::OutOfRange,
        Cause::PictureTooShort,
        Cause::TapeTooLong,
        Cause::WorkspaceTooShort,
        Cause::NoSuchStripe,
        Cause::StripesUnfit,
        Cause::CountersUnsound,
    ];

    /// The cause of any number.
    pub fn of(number: u32) -> Cause {
        let known = Cause::ALL
            .into_iter()
            .find(|cause| cause.number() == number);
        known.unwrap_or(Cause::Unknown(number))
    }

    pub fn number(self) -> u32 {
        match self {
            Cause::UnknownCommand => 1,
            Cause::OperandsMissing => 2,
            Cause::Unbalanced => 3,
            Cause::NotAScalar => 4,
            Cause::TooDeep => 5,
            Cause::TooManyLetters => 6,
            Cause::NotInAName => 7,
            Cause::OutOfRange => 8,
            Cause::PictureTooShort => 9,
            Cause::TapeTooLong => 10,
            Cause::WorkspaceTooShort => 11,
            Cause::NoSuchStripe => 12,
            Cause::StripesUnfit => 13,
            Cause::CountersUnsound => 14,
            Cause::Unknown(number) => number,
        }
    }

    /// Whether it lies in the tape.
    pub fn is_in_tape(self) -> bool {
        (1..=7).contains(&self.number())
    }

    /// The cause, in plain words.
    pub fn sentence(self) -> &'static str {
        match self {
            Cause::UnknownCommand => "the byte is not a command: commands are 00 to 0B",
            Cause::OperandsMissing => "the tape ends before the command's operands do",
            Cause::Unbalanced => {
                "a 00 closes no list, or the tape ends within a list or a voice's name"
            }
            Cause::NotAScalar => "the code point is a surrogate or over 10FFFF",
            Cause::TooDeep => "the list would lie deeper than 16 lists",
            Cause::TooManyLetters => "the cue would have more than 4096 letters",
            Cause::NotInAName => "a voice's name holds only letters, up to the 00 that ends it",
            Cause::OutOfRange => "a setting or the column limit is outside its range",
            Cause::PictureTooShort => {
                "the picture's buffer has fewer than width x height x 4 bytes"
            }
            Cause::TapeTooLong => "the tape has more than 16384 bytes",
            Cause::WorkspaceTooShort => "the workspace has fewer than 65536 bytes",
            Cause::NoSuchStripe => "the picture has no such stripe",
            Cause::StripesUnfit => {
                "the stripes are more than 64, or their ends do not rise from above 0 to the height"
            }
            Cause::CountersUnsound => {
                "a counter is over the cue's strokes, or is not 0 past the last stripe"
            }
            Cause::Unknown(_) => "the cause is unknown",
        }
    }
}

/// A refusal. The picture and the job's record are then as they were.
#[derive(Clone, Copy, Debug, PartialEq, Eq)]
pub struct Refusal {
    pub cause: Cause,
    /// For a cause in the tape the offset of the command at fault, or the tape's length where the
    /// tape ended too soon; else 0.
    pub place: usize,
}

impl Display for Refusal {
    fn fmt(&self, to: &mut Formatter) -> fmt::Result {
        let Refusal { cause, place } = self;
        write!(to, "refused {}", cause.number())?;
        if cause.is_in_tape() {
            write!(to, " at byte {place}")?;
        }
        write!(to, ": {}", cause.sentence())
    }
}

impl Error for Refusal {}

/// What the two halves of an answer hold: a number, or a refusal's number and its place.
pub(crate) fn answer(answer: u64) -> Result<u32> {
    let low = answer as u32;
    match (answer >> 32) as u32 {
        0 => Ok(low),
        number => Err(Refusal {
            cause: Cause::of(number),
            place: low as usize,
        }),
    }
}

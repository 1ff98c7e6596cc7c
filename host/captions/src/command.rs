//! The commands of a tape.

/// A command of a tape: a byte, and behind it its operands, high byte first.
///
/// ```
/// use captions::{Command, Workspace, wrap};
///
/// let letter = Command::Letter1.byte();
/// let tape = [letter, b'A', Command::Break.byte(), letter, b'B'];
/// assert_eq!(wrap(&tape, &mut Workspace::new(), 4)?.len(), 2);
/// # Ok::<(), captions::Refusal>(())
/// ```
#[derive(Clone, Copy, Debug, PartialEq, Eq)]
#[repr(u8)]
pub enum Command {
    /// Ends a list or a voice's name.
    End = 0x00,
    /// An empty text.
    Empty = 0x01,
    /// A letter, its code point in one byte.
    Letter1 = 0x02,
    /// A letter, its code point in two bytes.
    Letter2 = 0x03,
    /// A letter, its code point in three bytes.
    Letter3 = 0x04,
    /// A line break.
    Break = 0x05,
    /// A list follows.
    Bold = 0x06,
    /// A list follows.
    Italic = 0x07,
    /// Red, green and blue, a byte each, and then a list.
    Color = 0x08,
    /// Its name, letters up to an end, and then a list.
    Voice = 0x09,
    /// A list in the style around it.
    Group = 0x0A,
    /// Draws nothing.
    TimeMark = 0x0B,
}

impl Command {
    /// All of them, in the order of their bytes.
    pub const ALL: [Command; 12] = [
        Command::End,
        Command::Empty,
        Command::Letter1,
        Command::Letter2,
        Command::Letter3,
        Command::Break,
        Command::Bold,
        Command::Italic,
        Command::Color,
        Command::Voice,
        Command::Group,
        Command::TimeMark,
    ];

    /// The command of a byte; none where there is none.
    pub fn of(byte: u8) -> Option<Command> {
        Command::ALL.get(usize::from(byte)).copied()
    }

    pub fn byte(self) -> u8 {
        self as u8
    }

    /// How many operand bytes follow it.
    pub fn operands(self) -> usize {
        match self {
            Command::Letter1 => 1,
            Command::Letter2 => 2,
            Command::Letter3 | Command::Color => 3,
            _ => 0,
        }
    }
}

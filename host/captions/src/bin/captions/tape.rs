//! The commands of a tape, and the letters that they say. What is admitted is for the library to
//! decide: a reader is lent an admitted tape, or the part of one before the command at fault.

use captions::Command;

/// How many operand bytes follow a command's byte; none where it is unknown.
pub fn width(byte: u8) -> usize {
    Command::of(byte).map_or(0, Command::operands)
}

/// The number that operands spell, high byte first.
pub fn number(operands: &[u8]) -> u32 {
    let spelt = |number: u32, byte: &u8| number << 8 | u32::from(*byte);
    operands.iter().fold(0, spelt)
}

/// What a command means where it stands.
#[derive(Clone, Copy)]
pub enum Meaning {
    EndOfName,
    /// Of the list that the byte at this offset opened.
    EndOfList(usize),
    EmptyText,
    Letter(char),
    NameLetter(char),
    Break,
    Bold,
    Italic,
    Color([u8; 3]),
    Voice,
    PlainGroup,
    TimeMark,
}

impl Meaning {
    fn letters(self) -> Vec<char> {
        match self {
            Meaning::Letter(letter) | Meaning::NameLetter(letter) => vec![letter],
            Meaning::Break => vec!['\n'],
            Meaning::EndOfName => vec![':', ' '],
            _ => Vec::new(),
        }
    }
}

/// A command as it stands in a tape.
pub struct Entry<'a> {
    pub offset: usize,
    /// The command's byte and its operands.
    pub bytes: &'a [u8],
    /// How many lists and names it stands in; an end stands as deep as its opener.
    pub depth: usize,
    pub meaning: Meaning,
}

/// Reads commands one after the other, and knows where it stands between two.
pub struct Reader<'a> {
    tape: &'a [u8],
    pub offset: usize,
    /// Where the lists that are open were opened, the outermost first.
    pub lists: Vec<usize>,
    /// Where the voice stands whose name is being read.
    pub name: Option<usize>,
    /// The letters so far.
    pub letters: Vec<char>,
}

impl<'a> Reader<'a> {
    pub fn new(tape: &'a [u8]) -> Reader<'a> {
        Reader {
            tape,
            offset: 0,
            lists: Vec::new(),
            name: None,
            letters: Vec::new(),
        }
    }

    /// Reads up to the end.
    pub fn at_end(tape: &'a [u8]) -> Reader<'a> {
        let mut reader = Reader::new(tape);
        reader.by_ref().for_each(drop);
        reader
    }

    fn meaning(&self, command: Command, operands: &[u8]) -> Option<Meaning> {
        Some(match command {
            Command::End if self.name.is_some() => Meaning::EndOfName,
            Command::End => Meaning::EndOfList(*self.lists.last()?),
            Command::Empty => Meaning::EmptyText,
            Command::Letter1 | Command::Letter2 | Command::Letter3 => self.letter(operands)?,
            Command::Break => Meaning::Break,
            Command::Bold => Meaning::Bold,
            Command::Italic => Meaning::Italic,
            Command::Color => Meaning::Color(operands.try_into().ok()?),
            Command::Voice => Meaning::Voice,
            Command::Group => Meaning::PlainGroup,
            Command::TimeMark => Meaning::TimeMark,
        })
    }

    fn letter(&self, operands: &[u8]) -> Option<Meaning> {
        let letter = char::from_u32(number(operands))?;
        Some(match self.name {
            Some(_) => Meaning::NameLetter(letter),
            None => Meaning::Letter(letter),
        })
    }

    /// Goes into the list or name that a command opens, or out of the one that it ends, and answers
    /// the command's depth.
    fn follow(&mut self, meaning: Meaning) -> usize {
        let depth = self.lists.len();
        match meaning {
            Meaning::Bold | Meaning::Italic | Meaning::Color(_) | Meaning::PlainGroup => {
                self.lists.push(self.offset);
            }
            Meaning::Voice => self.name = Some(self.offset),
            Meaning::EndOfName => self.lists.extend(self.name.take()),
            Meaning::NameLetter(_) => return depth + 1,
            Meaning::EndOfList(_) => {
                self.lists.pop();
                return self.lists.len();
            }
            _ => {}
        }
        depth
    }
}

impl<'a> Iterator for Reader<'a> {
    type Item = Entry<'a>;

    fn next(&mut self) -> Option<Entry<'a>> {
        let offset = self.offset;
        let rest = self.tape.get(offset..)?;
        let command = Command::of(*rest.first()?)?;
        let bytes = rest.get(..1 + command.operands())?;
        let meaning = self.meaning(command, bytes.get(1..)?)?;
        let depth = self.follow(meaning);
        self.letters.extend(meaning.letters());
        self.offset += bytes.len();
        Some(Entry {
            offset,
            bytes,
            depth,
            meaning,
        })
    }
}

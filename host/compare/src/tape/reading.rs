//! A reading of document 01, written for the comparison alone: what any bytes mean. Where they are
//! refused the original says nothing, and this says what is due.

use crate::refusal::Refusal;
use crate::tape::MOST_BYTES;
use crate::tape::letters::{self, Outcome, Style};
use reference::Run;

struct Reader<'a> {
    tape: &'a [u8],
    at: usize,
    count: usize,
    runs: Vec<Run>,
}

/// What a tape comes to in a workspace that is large enough.
pub fn read(tape: &[u8], color: [u8; 4]) -> Outcome {
    if tape.len() > MOST_BYTES {
        return Err(Refusal {
            number: 10,
            place: 0,
        });
    }
    let mut reader = Reader {
        tape,
        at: 0,
        count: 0,
        runs: Vec::new(),
    };
    let style = Style {
        color,
        bold: false,
        italic: false,
    };
    reader.list(style, 0)?;
    Ok(letters::of_runs(&reader.runs))
}

impl<'a> Reader<'a> {
    fn list(&mut self, style: Style, depth: usize) -> Result<(), Refusal> {
        while let Some(&command) = self.tape.get(self.at) {
            let place = self.at;
            let refusal = |number| Err(Refusal { number, place });
            if command > 0x0b {
                return refusal(1);
            }
            if matches!(command, 0x06..=0x0a) && depth == 16 {
                return refusal(5);
            }
            let operands = self.operands(command)?;
            match command {
                0x00 if depth == 0 => return refusal(3),
                0x00 => return Ok(()),
                0x01 => self.push(style, place, "")?,
                0x02..=0x04 => self.letter(style, place, operands)?,
                0x05 => self.push(style, place, "\n")?,
                0x06 => self.list(
                    Style {
                        bold: true,
                        ..style
                    },
                    depth + 1,
                )?,
                0x07 => self.list(
                    Style {
                        italic: true,
                        ..style
                    },
                    depth + 1,
                )?,
                0x08 => {
                    let color = [operands[0], operands[1], operands[2], 255];
                    self.list(Style { color, ..style }, depth + 1)?;
                }
                0x09 => {
                    self.name(style)?;
                    self.list(style, depth + 1)?;
                }
                0x0a => self.list(style, depth + 1)?,
                _ => {}
            }
        }
        if depth == 0 { Ok(()) } else { Err(self.cut()) }
    }

    fn name(&mut self, style: Style) -> Result<(), Refusal> {
        while let Some(&command) = self.tape.get(self.at) {
            let place = self.at;
            match command {
                0x0c.. => return Err(Refusal { number: 1, place }),
                0x00 => {
                    self.at += 1;
                    return self.push(style, place, ": ");
                }
                0x02..=0x04 => {
                    let operands = self.operands(command)?;
                    self.letter(style, place, operands)?;
                }
                _ => return Err(Refusal { number: 7, place }),
            }
        }
        Err(self.cut())
    }

    /// Passes the command and its operands, which it answers.
    fn operands(&mut self, command: u8) -> Result<&'a [u8], Refusal> {
        let width = match command {
            0x02 => 1,
            0x03 => 2,
            0x04 | 0x08 => 3,
            _ => 0,
        };
        let place = self.at;
        let from = place + 1;
        let Some(operands) = self.tape.get(from..from + width) else {
            return Err(Refusal { number: 2, place });
        };
        self.at = from + width;
        Ok(operands)
    }

    fn letter(&mut self, style: Style, place: usize, operands: &[u8]) -> Result<(), Refusal> {
        let code = operands
            .iter()
            .fold(0, |code, &byte| code << 8 | u32::from(byte));
        match char::from_u32(code) {
            Some(ch) => self.push(style, place, ch.encode_utf8(&mut [0; 4])),
            None => Err(Refusal { number: 4, place }),
        }
    }

    /// Adds a text, which joins the run before it where their styles are equal.
    fn push(&mut self, style: Style, place: usize, text: &str) -> Result<(), Refusal> {
        self.count += text.chars().count();
        if self.count > 4096 {
            return Err(Refusal { number: 6, place });
        }
        let run = Run {
            text: text.to_string(),
            bold: style.bold,
            italic: style.italic,
            color: style.color,
        };
        match self.runs.last_mut() {
            Some(last)
                if (last.bold, last.italic, last.color) == (run.bold, run.italic, run.color) =>
            {
                last.text.push_str(text);
            }
            _ => self.runs.push(run),
        }
        Ok(())
    }

    /// The tape ends in a list or in a name.
    fn cut(&self) -> Refusal {
        Refusal {
            number: 3,
            place: self.tape.len(),
        }
    }
}

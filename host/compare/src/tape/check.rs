//! One tape, read by the proved reader into a fenced workspace.

use crate::fenced::{Fenced, Lent};
use crate::hex::hex;
use crate::random::Random;
use crate::refusal::Refusal;
use crate::tape::letters::Outcome;
use crate::tape::proved;

/// Reads the tape into a workspace of `room` bytes and holds answer and workspace to `expected`:
/// it begins with the letters and is as it was behind them, and after the refusals 10 and 11 it is
/// as it was.
pub fn check(tape: &[u8], color: [u8; 4], room: usize, expected: &Outcome) -> Result<(), String> {
    let mut fenced = Fenced::workspace(&mut Random::new(0, tape.len() as u64), room);
    let own = match expected {
        Ok(letters) => 8 * letters.len(),
        Err(Refusal { number: 10.., .. }) => 0,
        Err(_) => room,
    };
    let Lent { answer, kept } = fenced.lend(0..own, room - own, |workspace| {
        proved::read(tape, workspace, color)
    });
    let due = expected.as_ref().map(Vec::len).map_err(|refusal| *refusal);
    let wrong = |what: String| {
        Err(format!(
            "{what}\n    color {color:02x?}, tape {}",
            hex(tape)
        ))
    };
    if answer != due {
        return wrong(format!("{answer:?} where {due:?} is due"));
    }
    if !kept {
        return wrong(format!("{answer:?} wrote outside its {own} bytes"));
    }
    let Ok(letters) = expected else {
        return Ok(());
    };
    let (found, _) = fenced.inside().as_chunks::<8>();
    for (number, letter) in letters.iter().enumerate() {
        if found[number] != letter.bytes() {
            return wrong(format!(
                "letter {number} is {:02x?} where {letter:02x?} is due",
                found[number]
            ));
        }
    }
    Ok(())
}

//! The names of commands and causes.

mod common;

use captions::{Cause, Command, Workspace, wrap};
use common::tape;

#[test]
fn a_command_has_its_byte() {
    for (byte, command) in (0..).zip(Command::ALL) {
        assert_eq!(command.byte(), byte);
        assert_eq!(Command::of(byte), Some(command));
    }
    for byte in 0x0C..=0xFF {
        assert_eq!(Command::of(byte), None);
    }
}

/// With its operands a command is admitted, or a list or a name is left open; with one byte less
/// they are missing.
#[test]
fn the_library_takes_as_many_operands() {
    for command in Command::ALL {
        let bytes = [vec![command.byte()], vec![0; command.operands()]].concat();
        let refused = |bytes: &[u8]| wrap(bytes, &mut Workspace::new(), 4).err();
        let whole = refused(&bytes).map(|refusal| refusal.cause);
        assert!(
            matches!(whole, None | Some(Cause::Unbalanced)),
            "{command:?}"
        );
        if command.operands() > 0 {
            let short = refused(&bytes[..bytes.len() - 1]).map(|refusal| refusal.cause);
            assert_eq!(short, Some(Cause::OperandsMissing), "{command:?}");
        }
        // What stands behind them is no operand: a byte that is no command is told there.
        let more = [&bytes[..], &[Command::TimeMark.byte() + 1]].concat();
        let place = refused(&more).map(|refusal| refusal.place);
        let due = match command {
            Command::End => 0,
            _ => bytes.len(),
        };
        assert_eq!(place, Some(due), "{command:?}");
    }
}

#[test]
fn commands_mean_what_they_are_called() {
    let lines = |commands: &[&[u8]]| {
        let lines = wrap(&commands.concat(), &mut Workspace::new(), 99);
        let letters = |lines: Vec<captions::Line>| {
            let counts = lines.iter().map(|line| line.letters.len());
            counts.collect::<Vec<usize>>()
        };
        lines.map(letters)
    };
    let letter = tape("x");
    let end = &[Command::End.byte()][..];
    for list in [Command::Bold, Command::Italic, Command::Group] {
        assert_eq!(lines(&[&[list.byte()], &letter, end]), Ok(vec![1]));
    }
    let color = [Command::Color.byte(), 1, 2, 3];
    assert_eq!(lines(&[&color, &letter, end]), Ok(vec![1]));
    let voice = [Command::Voice.byte()];
    assert_eq!(lines(&[&voice, &letter, end, &letter, end]), Ok(vec![4]));
    for nothing in [Command::Empty, Command::TimeMark] {
        assert_eq!(lines(&[&letter, &[nothing.byte()]]), Ok(vec![1]));
    }
    let parted = [&letter[..], &[Command::Break.byte()], &letter];
    assert_eq!(lines(&parted), Ok(vec![1, 1]));
}

/// Which number each name has the header says: `c_interface.rs` compares.
#[test]
fn a_cause_has_its_number() {
    for (number, cause) in (1..).zip(Cause::ALL) {
        assert_eq!(cause.number(), number, "{cause:?}");
        assert_eq!(Cause::of(number), cause);
        assert_eq!(cause.is_in_tape(), number <= 7, "{cause:?}");
    }
}

#[test]
fn any_other_number_is_an_unknown_cause() {
    for number in [0, 15, 255, 256 + 3, u32::MAX] {
        let cause = Cause::of(number);
        assert_eq!(cause, Cause::Unknown(number));
        assert_eq!(cause.number(), number);
        assert!(!cause.is_in_tape());
        assert_eq!(cause.sentence(), "the cause is unknown");
    }
}

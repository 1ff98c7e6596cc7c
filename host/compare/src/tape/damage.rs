//! Tapes with something wrong.

use crate::random::Random;
use crate::tape::{segments, written};

/// The tape of random segments with one to three changes, or bytes without a plan; now and then
/// with nearly as many letters before it, or lists around it, as there may be.
pub fn tape(random: &mut Random) -> Vec<u8> {
    let mut tape = if random.one_in(4) {
        bytes(random)
    } else {
        changed(random)
    };
    let (byte, count) = match random.within(0..=39) {
        0 => (0x05, random.within(4080..=4097)),
        1..=3 => (0x0a, random.within(12..=17)),
        _ => return tape,
    };
    tape.splice(0..0, vec![byte; count as usize]);
    tape
}

fn changed(random: &mut Random) -> Vec<u8> {
    let segments = segments::random(random);
    let mut tape = written::tape(random, &segments);
    for _ in 0..random.within(1..=3) {
        change(random, &mut tape);
    }
    tape
}

/// Commands mostly, so that many of them are whole.
fn bytes(random: &mut Random) -> Vec<u8> {
    let count = random.within(0..=40);
    (0..count).map(|_| byte(random)).collect()
}

fn byte(random: &mut Random) -> u8 {
    if random.one_in(8) {
        random.byte()
    } else {
        random.within(0..=12) as u8
    }
}

fn change(random: &mut Random, tape: &mut Vec<u8>) {
    let at = random.within(0..=tape.len() as i64) as usize;
    match random.within(0..=4) {
        0 => tape.insert(at, byte(random)),
        1 => tape.truncate(at),
        2 => {
            let part = tape[at..].to_vec();
            tape.extend(part);
        }
        _ if at == tape.len() => {}
        3 => {
            tape.remove(at);
        }
        _ => tape[at] = byte(random),
    }
}

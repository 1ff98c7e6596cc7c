//! Calls with several things wrong at once: which of them is said.

use crate::count::Count;
use crate::fenced::Fenced;
use crate::random::Random;
use crate::refusal::Refusal;
use crate::tape::ROOM;
use crate::tape::limits::stopped;
use crate::wrap::check;

const LIMITS: [u32; 8] = [1, 40, 4095, 4096, 0, 4097, 1 << 16, u32::MAX];
const ROOMS: [usize; 8] = [ROOM, ROOM + 1, 2 * ROOM, 0, 1, 8, ROOM / 2, ROOM - 1];

/// Every limit with every room, and with each tape that is stopped and two that are not.
pub fn compare() -> Count {
    let mut count = Count::new("refusals of Wrap");
    let admitted = [Vec::new(), vec![0x02, 0x41]];
    let tapes = admitted.map(|tape| (tape, None)).into_iter();
    let stopped = stopped().into_iter().map(|(tape, number, place)| {
        let refusal = Refusal { number, place };
        (tape, Some(refusal))
    });
    for (tape, wrong) in tapes.chain(stopped) {
        for room in ROOMS {
            let mut workspace = Fenced::workspace(&mut Random::new(0, room as u64), room);
            for limit in LIMITS {
                let result = match first(limit, room, wrong) {
                    Some(refusal) => check::outcome(&tape, limit, &mut workspace, &Err(refusal)),
                    None => check::tape(&tape, limit, &mut workspace),
                };
                count.check(result.map_err(|found| format!("room {room}: {found}")));
            }
        }
    }
    count
}

/// The refusal that goes before the others: the limit's, a long tape's, the workspace's, and then
/// the tape's own.
fn first(limit: u32, room: usize, tape: Option<Refusal>) -> Option<Refusal> {
    let plain = |number| Some(Refusal { number, place: 0 });
    let long = tape.is_some_and(|refusal| refusal.number == 10);
    if limit == 0 || limit > 4096 {
        plain(8)
    } else if long {
        plain(10)
    } else if room < ROOM {
        plain(11)
    } else {
        tape
    }
}

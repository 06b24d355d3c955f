//! Room: the answer of a call whose outcome is known, for the lengths of its lent buffers; and the lengths worth trying.

use crate::call::{Call, Kind};
use crate::compute::{Answer, IN_SCRATCH, Outcome, refused_answer};
use crate::refusal::NO_ROOM;

/// The answer in the rooms that the call has. NoRoom comes last, with the units needed; a refused call writes nothing.
pub fn answer_in_room(call: &Call, outcome: &Outcome) -> Answer {
    let answer = outcome.answer;
    if answer.refusal != 0 {
        return answer;
    }
    match units_short(call, outcome) {
        None => answer,
        Some(units) => {
            let mut refused = refused_answer(call, (NO_ROOM, units));
            if matches!(call.kind, Kind::DecodeTyped | Kind::DecodeKey) {
                // the values begun are counted all the same
                refused.numbers[0] = answer.numbers[0];
            }
            refused
        }
    }
}

/// The units needed where a lent buffer is short: words before pool, lower end before upper.
fn units_short(call: &Call, outcome: &Outcome) -> Option<u64> {
    use Kind::*;
    let over = |needed: usize, room: usize| (needed > room).then_some(needed as u64);
    match call.kind {
        EncodeTyped | EncodeKey | Strinc | AboveField => over(outcome.bytes.len(), call.rooms[0]),
        DecodeTyped | DecodeKey => over(outcome.words.len(), call.rooms[0]).or(over(outcome.pool.len(), call.rooms[1])),
        Bounds | Span | StartingWith => over(outcome.bytes.len(), call.rooms[0]).or(over(outcome.pool.len(), call.rooms[1])),
        Replace => over(outcome.bytes.len(), call.bytes.len()),
        GetStr | GetBytes | TakeStr | TakeBytes if outcome.answer.numbers[0] == IN_SCRATCH => over(outcome.bytes.len(), call.rooms[0]),
        PutI64 | PutU64 | PutStr | PutBytes | PutFactId | PutNull | PutRecord | PutUnion | PutEnd => {
            let (at, room) = (call.numbers[0], call.rooms[0] as u64);
            if at > room {
                return Some(at);
            }
            let end = at.saturating_add(outcome.bytes.len() as u64);
            (end > room).then_some(end)
        }
        _ => None,
    }
}

/// A place farther on gets no buffer that reaches it.
const FARTHEST: usize = 4_096;

/// The rooms worth trying for a call, given its outcome: exact, one short, one over, none.
pub fn telling_rooms(call: &Call, outcome: &Outcome, rooms: &mut Vec<[usize; 2]>) {
    use Kind::*;
    rooms.clear();
    let refused = outcome.answer.refusal != 0;
    let (first, second) = (outcome.bytes.len(), outcome.pool.len());
    match call.kind {
        EncodeTyped | EncodeKey | Strinc | AboveField => {
            if refused {
                rooms.extend([[0, 0], [24, 0]]);
            } else {
                around(first, 0, rooms);
            }
        }
        GetStr | GetBytes | TakeStr | TakeBytes => {
            if refused || outcome.answer.numbers[0] != IN_SCRATCH {
                rooms.extend([[0, 0], [8, 0]]);
            } else {
                around(first, 0, rooms);
            }
        }
        PutI64 | PutU64 | PutStr | PutBytes | PutFactId | PutNull | PutRecord | PutUnion | PutEnd => {
            let at = outcome.at;
            if refused || at > FARTHEST {
                rooms.extend([[0, 0], [24, 0]]);
            } else {
                around(at + first, at, rooms);
            }
        }
        DecodeTyped | DecodeKey => {
            if refused {
                rooms.extend([[0, 0], [32, 32]]);
            } else {
                around_two(outcome.words.len(), second, rooms);
            }
        }
        Bounds | Span | StartingWith => {
            if refused {
                rooms.extend([[0, 0], [32, 32]]);
            } else {
                around_two(first, second, rooms);
            }
        }
        _ => rooms.push([0, 0]),
    }
}

fn add(room: [usize; 2], rooms: &mut Vec<[usize; 2]>) {
    if !rooms.contains(&room) {
        rooms.push(room);
    }
}

fn around(needed: usize, at: usize, rooms: &mut Vec<[usize; 2]>) {
    for room in [needed, needed.saturating_sub(1), needed + 1, 0, at, at.saturating_sub(1)] {
        add([room, 0], rooms);
    }
}

fn around_two(first: usize, second: usize, rooms: &mut Vec<[usize; 2]>) {
    for room in [
        [first, second],
        [first.saturating_sub(1), second],
        [first, second.saturating_sub(1)],
        [first + 1, second + 1],
        [0, 0],
        [first, 0],
        [0, second],
    ] {
        add(room, rooms);
    }
}

//! Small random index calls and indexed calls with their answers as rows of text, for others to compute
//! again, one per line: `B REQUEST ROOM NUMBER INPUT PLACE COUNT AFTERWARDS` and
//! `I REQUEST INDEX LENT BUDGET NUMBER INPUT PLACE COUNT STATE LINE`.
//!
//! All is written as in `rows.rs`. ROOM is the length of the lent room, whose bytes are all 9, and AFTERWARDS
//! are its bytes after answer 0, and `-` where they stay as lent. Both kinds of rows, all numbers and all
//! events come round in 150 rows, but for a room that is far too long, and for those that take long inputs,
//! which stand in the first round only: item 1,025 and a request that is too long, an offset above 255, more
//! than 16 lines of an action, and an index that is far too long. Requests have at most 120 bytes, and 600
//! with such offsets and lines.

use super::call::{index, judge_indexed_line, ROOM_SHORT};
use super::calls::{with_index, IndexedCall, FAR_TOO_LONG};
use super::run::{built_events, events, Built, Event};
use crate::calls::{damaged_judge_call, sound_judge_call, Left};
use crate::generate::{drawn, filled, Shape, SMALL, TINY};
use crate::open;
use crate::rng::Rng;
use crate::rows::Shown::{self, Number};
use crate::rows::{
    small_shape, spread_shape, tell_bytes, tell_judging, Series, BYTES, FULL_BYTES, LONG_BYTES,
};
use crate::text::comma_separated;
use crate::walk::{walk, Verdict};

/// Largest count of a walk.
const COUNT: u32 = 300;
/// What every byte of a lent room is.
const LENT: u8 = 9;

/// What a row is wanted for.
#[derive(Clone, Copy, Debug)]
enum Wanted {
    Built(Shown<Built>),
    Judged(Shown<Event>),
}

use Wanted::Judged;

const fn built(event: Built) -> Wanted {
    Wanted::Built(Shown::Event(event))
}

const fn judged(event: Event) -> Wanted {
    Judged(Shown::Event(event))
}

/// How often each comes in a round of calls.
const INDEXED: [(Wanted, u64); 54] = [
    (Wanted::Built(Number(0)), 2),
    (built(Built::RoomExact), 8),
    (built(Built::RoomLonger), 4),
    (built(Built::RoomOneShort), 4),
    (built(Built::NoRoom), 2),
    (built(Built::RefusedWithoutRoom), 2),
    (built(Built::SaidTwice), 3),
    (built(Built::NoLines), 2),
    (built(Built::InTurn), 3),
    (Wanted::Built(Number(ROOM_SHORT)), 2),
    (Wanted::Built(Number(11)), 1),
    (Wanted::Built(Number(12)), 1),
    (Wanted::Built(Number(13)), 1),
    (Wanted::Built(Number(14)), 1),
    (Wanted::Built(Number(15)), 1),
    (Wanted::Built(Number(16)), 2),
    (Wanted::Built(Number(17)), 1),
    (Wanted::Built(Number(18)), 1),
    (Wanted::Built(Number(19)), 1),
    (Wanted::Built(Number(20)), 1),
    (Judged(Number(0)), 10),
    (Judged(Number(1)), 8),
    (Judged(Number(2)), 6),
    (Judged(Number(3)), 6),
    (judged(Event::WalkedSaidTwice), 4),
    (judged(Event::StuckWithLine), 6),
    (judged(Event::NoIndex), 2),
    (judged(Event::CutShort), 4),
    (judged(Event::BytesBehind), 4),
    (judged(Event::AnotherCount), 4),
    (judged(Event::AnotherHighByte), 2),
    (judged(Event::AnotherLowByte), 4),
    (judged(Event::BodyOffset), 3),
    (judged(Event::RunsFirst), 3),
    (judged(Event::OtherOrder), 4),
    (judged(Event::OneLeftOut), 3),
    (judged(Event::FirstTwice), 3),
    (judged(Event::DiffersWithBudget0), 2),
    (judged(Event::DiffersThoughVerified), 3),
    (judged(Event::DiffersThoughMissed), 3),
    (judged(Event::DiffersThoughStuck), 3),
    (judged(Event::DiffersThoughSpent), 2),
    (judged(Event::LengthBeforeIndex), 2),
    (judged(Event::RefusedWithoutIndex), 3),
    (Judged(Number(11)), 1),
    (Judged(Number(12)), 2),
    (Judged(Number(13)), 2),
    (Judged(Number(14)), 1),
    (Judged(Number(15)), 1),
    (Judged(Number(16)), 2),
    (Judged(Number(17)), 1),
    (Judged(Number(18)), 1),
    (Judged(Number(19)), 1),
    (Judged(Number(20)), 1),
];

/// Those that take long inputs, which stand in the first round only.
const LONG: [Wanted; 7] = [
    Wanted::Built(Number(10)),
    Wanted::Built(Number(21)),
    Judged(Number(10)),
    Judged(Number(21)),
    built(Built::FarOffset),
    built(Built::ManyLines),
    judged(Event::FarTooLong),
];

/// A call, of which one half is told.
struct Row {
    builds: bool,
    call: IndexedCall,
}

const ROWS: Series<Wanted, Row> = Series {
    streams: [33, 34],
    often: &INDEXED,
    first: &LONG,
    draw,
    fits,
    tell,
};

/// So many rows.
pub fn indexed_rows(seed: u64, count: u64) -> impl Iterator<Item = String> {
    ROWS.rows(seed, count)
}

/// Many effects of one action, with longer bodies than most.
const MANY: Shape = Shape {
    actions: (1, 2),
    effects: 40,
    spread: 0,
    ..SMALL
};

/// A call that may show what is wanted.
fn draw(rng: &mut Rng, wanted: Wanted) -> Row {
    let shape = match wanted {
        Wanted::Built(Shown::Event(Built::FarOffset)) => Shape {
            actions: (3, 5),
            effects: 8,
            ..spread_shape(rng)
        },
        Wanted::Built(Shown::Event(Built::ManyLines)) => MANY,
        // With all actions but a few an index is long, and most of it is the same.
        _ if rng.chance(90) => Shape {
            spread: 0,
            ..*small_shape(rng)
        },
        _ => TINY,
    };
    let mut draft = drawn(rng, &shape);
    if let Wanted::Built(Shown::Event(Built::FarOffset)) = wanted {
        draft = filled(rng, &draft);
    }
    let sound = |rng: &mut Rng| sound_judge_call(rng, &draft);
    let damaged = |rng: &mut Rng| damaged_judge_call(rng, &draft);
    let (call, wrong) = match wanted {
        Wanted::Built(shown) => {
            let refused = matches!(shown, Shown::Event(Built::RefusedWithoutRoom));
            let walked = !refused && !matches!(shown, Number(11..=21));
            (shown.called(rng, walked, sound, damaged), 0)
        }
        Judged(shown) => {
            let refused = matches!(shown, Shown::Event(Event::RefusedWithoutIndex));
            let walked = !refused && !matches!(shown, Number(11..=21));
            let mut call = shown.called(rng, walked, sound, damaged);
            if let Shown::Event(Event::LengthBeforeIndex) = shown {
                crate::calls::lend_wrongly(rng, &mut call);
            }
            let right = matches!(
                shown,
                Number(0..=3) | Shown::Event(Event::WalkedSaidTwice | Event::StuckWithLine)
            );
            (call, if right { 0 } else { 100 })
        }
    };
    let mut call = with_index(rng, call, wrong);
    call.room.fill(LENT);
    Row {
        builds: matches!(wanted, Wanted::Built(_)),
        call,
    }
}

fn left(call: &IndexedCall) -> Left {
    let judge = |request: &[u8], lent: &mut [u8], budget| {
        judge_indexed_line(request, &call.index, lent, budget)
    };
    call.call.made(judge)
}

/// It shows what is wanted, and has as few bytes as that lets it have. The whole walk, if it is reached,
/// counts little.
fn fits(row: &Row, wanted: Wanted) -> bool {
    let call = &row.call;
    let request = &call.call.request;
    let (number, shown) = match wanted {
        Wanted::Built(shown) => {
            let answer = index(request, &mut call.room.clone());
            let events = || built_events(request, call.room.len(), answer);
            (answer.number, shown.is_met(answer.number, events))
        }
        Judged(shown) => {
            let left = left(call);
            let (answer, line) = (left.answer, left.line);
            let events = || events(request, &call.index, call.call.budget, (answer, line));
            (answer.number, shown.is_met(answer.number, events))
        }
    };
    shown
        && is_small(call, wanted, number)
        && open(request).map_or(true, |read| walk(&read, COUNT) != Verdict::Over)
}

/// Request, index and room have few bytes, unless more are wanted of them.
fn is_small(call: &IndexedCall, wanted: Wanted, number: u8) -> bool {
    let (most, longest) = match wanted {
        Wanted::Built(Shown::Event(Built::FarOffset | Built::ManyLines)) => {
            (FULL_BYTES, FULL_BYTES)
        }
        Judged(Shown::Event(Event::FarTooLong)) => (BYTES, FAR_TOO_LONG),
        _ => match number {
            10 => (usize::MAX, FULL_BYTES),
            21 => (LONG_BYTES, FULL_BYTES),
            _ => (BYTES, FULL_BYTES),
        },
    };
    let length = match wanted {
        Wanted::Built(_) => call.room.len(),
        Judged(_) => call.index.len(),
    };
    let in_short =
        |bytes: &[u8]| bytes.len() < FAR_TOO_LONG || bytes.iter().all(|byte| *byte == bytes[0]);
    call.call.request.len() <= most && length <= longest && in_short(&call.index)
}

fn tell(row: &Row) -> String {
    let call = &row.call;
    let request = tell_bytes(&call.call.request);
    if !row.builds {
        let index = tell_bytes(&call.index);
        return tell_judging(&format!("I {request} {index}"), &call.call, &left(call));
    }
    let mut room = call.room.clone();
    let answer = index(&call.call.request, &mut room);
    let told = match answer.number {
        0 => comma_separated(&room),
        _ => "-".to_string(),
    };
    format!("B {request} {} {answer} {told}", room.len())
}

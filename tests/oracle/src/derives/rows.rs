//! Small random derive calls with their answers as rows of text, for others to compute again, one per line:
//! `P REQUEST ROOM BUDGET NUMBER INPUT PLACE COUNT AFTERWARDS`.
//!
//! All is written as in `rows.rs`, and ROOM and AFTERWARDS as in `indexes/rows.rs`. All numbers come round in
//! 150 rows, and the events of small requests, but for those that take long inputs or derivations, which stand
//! in the first round only: item 1,025, a request that is too long, six fluents that are unknown where an
//! action looks, as many lines or bytes as there may be, and more. Requests have at most 120 bytes, derivations
//! 400, and walks count at most 300; of the long ones, 600 bytes, 32,769 and 900.

use super::call::{derive, TOO_MANY_LINES, WHETHER_ASKED};
use super::calls::{
    call_of, length_of, looking_at, of_bytes, of_looks, of_readings, with_room, without_whether,
};
use super::run::{events, Event};
use crate::calls::{damaged_judge_call, sound_judge_call, JudgeCall};
use crate::generate::{drawn, Shape};
use crate::indexes::call::ROOM_SHORT;
use crate::open;
use crate::reader::{DERIVATION_LIMIT, LINE_LIMIT};
use crate::rng::Rng;
use crate::rows::Shown::{self, Number};
use crate::rows::{
    small_shape, tell_bytes, too_long, Series, BYTES, FULL_BYTES, LONG_BYTES, MORE_DERIVATION_BYTES,
};
use crate::text::comma_separated;
use crate::walk::{walk, Verdict};
use crate::Answer;

/// Largest count of a walk, and of one with as many lines as there may be, or more.
const COUNT: u32 = 300;
const MORE_COUNT: u32 = 900;
/// Most bytes of a derivation with 64 readings.
const SIXTY_FOUR_BYTES: usize = 4_000;
/// What every byte of a lent room is.
const LENT: u8 = 9;

type Wanted = Shown<Event>;

const fn shows(event: Event) -> Wanted {
    Shown::Event(event)
}

/// How often each comes in a round of calls.
const DERIVED: [(Wanted, u64); 44] = [
    (Number(0), 18),
    (shows(Event::RoomExact), 12),
    (shows(Event::RoomOneLonger), 5),
    (shows(Event::RoomOneShort), 6),
    (shows(Event::NoRoom), 3),
    (shows(Event::RefusedWithoutRoom), 3),
    (shows(Event::WhetherWithoutRoom), 2),
    (shows(Event::MissedWithoutRoom), 2),
    (shows(Event::StuckWithoutRoom), 2),
    (shows(Event::SpentWithoutRoom), 2),
    (shows(Event::WideWithoutRoom), 1),
    (shows(Event::WhetherThoughVerified), 2),
    (shows(Event::WhetherThoughMissed), 2),
    (shows(Event::WhetherThoughStuck), 2),
    (shows(Event::WhetherThoughSpent), 2),
    (shows(Event::JustEnoughBudget), 4),
    (shows(Event::BudgetOneShort), 4),
    (shows(Event::SevenUnknown), 2),
    (shows(Event::WideLater), 2),
    (shows(Event::WidePassedBy), 2),
    (shows(Event::MissedThoughWide), 1),
    (shows(Event::StuckThoughWide), 1),
    (shows(Event::SpentThoughWide), 1),
    (shows(Event::AllAreGoals), 5),
    (shows(Event::OneReading), 6),
    (shows(Event::FourReadings), 5),
    (shows(Event::JoinedTwice), 6),
    (shows(Event::EmptyPlan), 3),
    (shows(Event::NoGoals), 4),
    (Number(1), 7),
    (Number(2), 7),
    (Number(3), 4),
    (Number(WHETHER_ASKED), 2),
    (Number(ROOM_SHORT), 3),
    (Number(11), 2),
    (Number(12), 2),
    (Number(13), 2),
    (Number(14), 2),
    (Number(15), 1),
    (Number(16), 2),
    (Number(17), 2),
    (Number(18), 2),
    (Number(19), 1),
    (Number(20), 1),
];

/// Those that take long inputs or derivations, which stand in the first round only.
const LONG: [Wanted; 8] = [
    Number(10),
    Number(21),
    Number(TOO_MANY_LINES),
    shows(Event::SixUnknown),
    shows(Event::MostLinesWithoutRoom),
    shows(Event::OneLineMore),
    shows(Event::MostBytes),
    shows(Event::OneByteMore),
];

/// The events that no row has to show, since they take long plans, rooms or derivations.
pub const NOT_SHOWN: [Event; 11] = [
    Event::RoomFarTooLong,
    Event::LinesWithoutRoom,
    Event::FiveUnknown,
    Event::MoreThanSixSensed,
    Event::MoreUnknown,
    Event::WideBehindManyLines,
    Event::MostLines,
    Event::FarMoreLines,
    Event::FarMoreBytes,
    Event::FarCitation,
    Event::FullState,
];

const ROWS: Series<Wanted, JudgeCall> = Series {
    streams: [38, 39],
    often: &DERIVED,
    first: &LONG,
    draw,
    fits,
    tell,
};

/// So many rows.
pub fn derived_rows(seed: u64, count: u64) -> impl Iterator<Item = String> {
    ROWS.rows(seed, count)
}

/// A call that may show what is wanted.
fn draw(rng: &mut Rng, wanted: Wanted) -> JudgeCall {
    let shape = Shape {
        spread: 5,
        ..*small_shape(rng)
    };
    let mut call = match wanted {
        Number(1..=3 | WHETHER_ASKED) => {
            let draft = drawn(rng, &shape);
            sound_judge_call(rng, &draft)
        }
        Number(11..=21) | Shown::Event(Event::RefusedWithoutRoom) => {
            let draft = drawn(rng, &shape);
            damaged_judge_call(rng, &draft)
        }
        Number(TOO_MANY_LINES) => {
            let draft = of_readings(&[6, 3]);
            call_of(rng, &draft)
        }
        Shown::Event(event) => {
            let draft = match event {
                Event::SixUnknown => looking_at(rng, 6),
                Event::MostLinesWithoutRoom => of_looks(rng, LINE_LIMIT),
                Event::OneLineMore => of_looks(rng, LINE_LIMIT + 1),
                Event::MostBytes => of_bytes(rng, DERIVATION_LIMIT),
                Event::OneByteMore => of_bytes(rng, DERIVATION_LIMIT + 1),
                _ if of_looking(event) => looking_at(rng, 7),
                _ if of_walking(event) => drawn(rng, &shape),
                _ => drawn(rng, &without_whether(&shape)),
            };
            call_of(rng, &draft)
        }
        _ => {
            let draft = drawn(rng, &without_whether(&shape));
            call_of(rng, &draft)
        }
    };
    if let Number(10) = wanted {
        too_long(rng, &mut call.request);
    }
    let mut call = with_room(rng, call);
    call.lent.fill(LENT);
    call
}

/// Whether it takes a sensing action that is too wide.
fn of_looking(event: Event) -> bool {
    matches!(
        event,
        Event::WideWithoutRoom
            | Event::SevenUnknown
            | Event::WideLater
            | Event::WidePassedBy
            | Event::MissedThoughWide
            | Event::StuckThoughWide
            | Event::SpentThoughWide
    )
}

/// Whether it takes a whether entry, or a plan that is not verified.
fn of_walking(event: Event) -> bool {
    matches!(
        event,
        Event::WhetherWithoutRoom
            | Event::WhetherThoughVerified
            | Event::WhetherThoughMissed
            | Event::WhetherThoughStuck
            | Event::WhetherThoughSpent
            | Event::MissedWithoutRoom
            | Event::StuckWithoutRoom
            | Event::SpentWithoutRoom
    )
}

/// It shows what is wanted, and has as few bytes as that lets it have. The whole walk, if it is reached,
/// counts little.
fn fits(call: &JudgeCall, wanted: Wanted) -> bool {
    let (most, derived, count) = match wanted {
        Number(10) => (usize::MAX, 0, 0),
        Number(21) => (LONG_BYTES, 0, 0),
        Number(TOO_MANY_LINES) => (BYTES, 0, MORE_COUNT),
        Shown::Event(Event::SixUnknown) => (BYTES, SIXTY_FOUR_BYTES, COUNT),
        Shown::Event(Event::MostLinesWithoutRoom | Event::OneLineMore) => {
            (BYTES, DERIVATION_LIMIT, MORE_COUNT)
        }
        Shown::Event(Event::MostBytes | Event::OneByteMore) => {
            (FULL_BYTES, DERIVATION_LIMIT + 1, COUNT)
        }
        _ => (BYTES, MORE_DERIVATION_BYTES, COUNT),
    };
    let light = |request| walk(&request, count) != Verdict::Over;
    call.request.len() <= most
        && call.lent.len() <= derived.max(FULL_BYTES)
        && open(&call.request).map_or(true, light)
        && length_of(call).is_none_or(|length| length <= derived)
        && is_shown(call, wanted)
}

fn is_shown(call: &JudgeCall, wanted: Wanted) -> bool {
    let (answer, _) = derived(call);
    let events = || events(&call.request, call.lent.len(), call.budget, answer);
    wanted.is_met(answer.number, events)
}

fn derived(call: &JudgeCall) -> (Answer, Vec<u8>) {
    let mut room = call.lent.clone();
    (derive(&call.request, &mut room, call.budget), room)
}

fn tell(call: &JudgeCall) -> String {
    let (answer, room) = derived(call);
    let told = match answer.number {
        0 => comma_separated(&room),
        _ => "-".to_string(),
    };
    let request = tell_bytes(&call.request);
    format!("P {request} {} {} {answer} {told}", room.len(), call.budget)
}

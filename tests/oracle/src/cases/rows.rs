//! Small random calls by cases with their answers as rows of text, for others to compute again, one
//! per line: `C REQUEST LENT BUDGET NUMBER INPUT PLACE COUNT STATE LINE`.
//!
//! All is written as in `rows.rs`. All numbers come round in 150 rows, and all events but the one that takes an
//! action with 12 open fluents. Requests have at most 130 bytes, and up to 240 where an action has more open
//! fluents than that; the actions run in a walk have few complete fillings together. A request with item 1,025
//! and one that is too long stand in the first round only.

use super::call::{judge_by_cases_line, TOO_MANY};
use super::calls::{look_for_nothing, sound_cases_call, split_drawn, widen};
use super::run::{events, Event};
use super::way::{walk_filling, Filled};
use crate::calls::{damaged_judge_call, JudgeCall};
use crate::generate::{drawn, starve, Shape, TINY};
use crate::model::Request;
use crate::open;
use crate::rng::Rng;
use crate::rows::Shown::{self, Number};
use crate::rows::{tell_request, Series};
use crate::walk::Verdict;

/// Most bytes of a request, and of one whose walk ends with 44, or may.
const BYTES: usize = 130;
const WIDE_BYTES: usize = 240;
/// Largest count of a walk, and of complete fillings in it.
const COUNT: u32 = 300;
const FILLINGS: u128 = 300;

/// How often each comes in a round of calls.
const BY_CASES: [(Shown<Event>, u64); 41] = [
    (Shown::Event(Event::VerifiedThoughMissed), 12),
    (Shown::Event(Event::VerifiedThoughStuck), 16),
    (Shown::Event(Event::VerifiedThoughSpent), 1),
    (Shown::Event(Event::VerifiedByBoth), 4),
    (Shown::Event(Event::VerifiedWithLess), 2),
    (Shown::Event(Event::MissedThoughStuck), 4),
    (Shown::Event(Event::StuckInSome), 8),
    (Shown::Event(Event::StuckInNone), 4),
    (Shown::Event(Event::StuckAtBranching), 3),
    (Shown::Event(Event::RunByLines), 8),
    (Shown::Event(Event::SensedByLines), 4),
    (Shown::Event(Event::ThirteenOpen), 6),
    (Shown::Event(Event::MoreOpen), 3),
    (Shown::Event(Event::TooManyAtStart), 2),
    (Shown::Event(Event::TooManyWithBudget0), 3),
    (Shown::Event(Event::TooManyLater), 3),
    (Shown::Event(Event::TooManyAtBudget), 2),
    (Shown::Event(Event::TooManyAfterMiss), 2),
    (Shown::Event(Event::SpentBeforeTooMany), 2),
    (Shown::Event(Event::TooManyByFalse), 3),
    (Shown::Event(Event::TooManyThoughAllowed), 3),
    (Shown::Event(Event::TooManyWithoutLine), 2),
    (Shown::Event(Event::TooManyBeforeStop), 3),
    (Shown::Event(Event::TooManyOfSensing), 2),
    (Shown::Event(Event::TooManyThoughVerified), 2),
    (Number(0), 4),
    (Number(1), 10),
    (Number(2), 6),
    (Number(3), 8),
    (Number(9), 1),
    (Number(11), 2),
    (Number(12), 2),
    (Number(13), 2),
    (Number(14), 1),
    (Number(15), 1),
    (Number(16), 2),
    (Number(17), 2),
    (Number(18), 2),
    (Number(19), 1),
    (Number(20), 1),
    (Number(TOO_MANY), 1),
];

/// Those that take long requests, which stand in the first round only.
const LONG: [Shown<Event>; 2] = [Number(10), Number(21)];

const ROWS: Series<Shown<Event>, JudgeCall> = Series {
    streams: [25, 26],
    often: &BY_CASES,
    first: &LONG,
    draw: |rng, wanted| {
        let draft = draft(rng, wanted);
        let walked = !matches!(wanted, Number(11..=21));
        wanted.called(
            rng,
            walked,
            |rng| sound_cases_call(rng, &draft),
            |rng| damaged_judge_call(rng, &draft),
        )
    },
    fits,
    tell: |call| tell_request("C", call, &call.made(judge_by_cases_line)),
};

/// So many rows.
pub fn cases_rows(seed: u64, count: u64) -> impl Iterator<Item = String> {
    ROWS.rows(seed, count)
}

/// It takes an action with too many open fluents.
fn is_wide(wanted: Shown<Event>) -> bool {
    match wanted {
        Number(number) => number == TOO_MANY,
        Shown::Event(event) => event >= Event::ThirteenOpen,
    }
}

/// A request that may show it.
fn draft(rng: &mut Rng, wanted: Shown<Event>) -> Request {
    if is_wide(wanted) {
        let shape = Shape { spread: 0, ..TINY };
        let draft = drawn(rng, &shape);
        return widen(rng, draft);
    }
    let shape = Shape {
        fluents: (1, 5),
        ..TINY
    };
    if rng.chance(5) {
        let draft = drawn(rng, &shape);
        return look_for_nothing(rng, draft);
    }
    let mut draft = split_drawn(rng, &shape);
    if rng.chance(10) {
        starve(rng, &mut draft);
    }
    draft
}

/// It shows what is wanted, and has as few bytes as that lets it have. The whole walk, if it is
/// reached, counts little, and has few complete fillings.
fn fits(call: &JudgeCall, wanted: Shown<Event>) -> bool {
    let most = if is_wide(wanted) { WIDE_BYTES } else { BYTES };
    let light = |request| {
        let (ended, met) = walk_filling(&request, COUNT, Filled::Open);
        ended != Ok(Verdict::Over) && met.fillings <= FILLINGS
    };
    wanted.is_shown(call, most, judge_by_cases_line, events)
        && open(&call.request).map_or(true, light)
}

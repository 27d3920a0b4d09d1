//! Small random guarded calls with their answers as rows of text, for others to compute again, one
//! per line: `G REQUEST LENT BUDGET NUMBER INPUT PLACE COUNT STATE LINE`.
//!
//! All is written as in `rows.rs`; STATE is there after answers 1, 2 and 43. All numbers and events
//! come round in 150 rows. Requests have at most 130 bytes; one with item 1,025, one that is too
//! long and one with 64 guards stand in the first round only.

use super::call::{judge_guarded_line, open_guarded};
use super::calls::{damaged_guarded_call, guarded, sound_guarded_call};
use super::run::{events, Event};
use crate::calls::JudgeCall;
use crate::generate::{drawn, filled};
use crate::rng::Rng;
use crate::rows::Shown::{self, Number};
use crate::rows::{small_shape, spread_shape, tell_request, Series, FULL_BYTES};
use crate::walk::{walk_guarded, Verdict};

/// Most bytes of a request.
const BYTES: usize = 130;
/// Largest count of a walk.
const COUNT: u32 = 1_000;

/// How often each comes in a round of calls.
const GUARDED: [(Shown<Event>, u64); 35] = [
    (Shown::Event(Event::VerifiedWithGuards), 18),
    (Shown::Event(Event::MissedWithGuards), 12),
    (Shown::Event(Event::StuckWithGuards), 8),
    (Shown::Event(Event::SpentWithGuards), 6),
    (Shown::Event(Event::SpentBeforeBroken), 6),
    (Shown::Event(Event::NoGuards), 6),
    (Shown::Event(Event::BrokenAtStart), 5),
    (Shown::Event(Event::BrokenWithBudget0), 2),
    (Shown::Event(Event::BrokenMidway), 10),
    (Shown::Event(Event::BrokenAfterLaterReading), 8),
    (Shown::Event(Event::BrokenAtEnd), 8),
    (Shown::Event(Event::BrokenBeforeStop), 8),
    (Shown::Event(Event::BrokenAfterMiss), 6),
    (Shown::Event(Event::BrokenByUnknown), 2),
    (Shown::Event(Event::BrokenByFalse), 2),
    (Shown::Event(Event::BrokenLaterGuard), 6),
    (Shown::Event(Event::BrokenAtBudget), 4),
    (Shown::Event(Event::NoNinth), 2),
    (Shown::Event(Event::NinthEnds), 3),
    (Shown::Event(Event::NinthTooLong), 1),
    (Shown::Event(Event::NinthCount65), 1),
    (Shown::Event(Event::NinthTooLarge), 2),
    (Shown::Event(Event::NinthNotAscending), 2),
    (Shown::Event(Event::NinthComplement), 2),
    (Shown::Event(Event::BytesBehind), 2),
    (Number(9), 1),
    (Number(11), 2),
    (Number(12), 3),
    (Number(13), 3),
    (Number(14), 1),
    (Number(15), 1),
    (Number(16), 2),
    (Number(17), 2),
    (Number(18), 2),
    (Number(19), 1),
];

/// Those that take long requests, which stand in the first round only.
const LONG: [Shown<Event>; 4] = [
    Number(10),
    Number(21),
    Shown::Event(Event::MostGuards),
    Shown::Event(Event::LastLiteral),
];

const ROWS: Series<Shown<Event>, JudgeCall> = Series {
    streams: [20, 21],
    often: &GUARDED,
    first: &LONG,
    draw,
    fits,
    tell: |call| tell_request("G", call, &call.made(judge_guarded_line)),
};

/// So many rows.
pub fn guarded_rows(seed: u64, count: u64) -> impl Iterator<Item = String> {
    ROWS.rows(seed, count)
}

/// A call that may show what is wanted.
fn draw(rng: &mut Rng, wanted: Shown<Event>) -> JudgeCall {
    let shape = match wanted {
        Shown::Event(Event::MostGuards | Event::LastLiteral) => spread_shape(rng),
        _ => *small_shape(rng),
    };
    let mut draft = drawn(rng, &shape);
    if let Shown::Event(Event::MostGuards) = wanted {
        draft = filled(rng, &draft);
    }
    let draft = guarded(rng, draft);
    let walked = matches!(wanted, Shown::Event(event) if event < Event::NoNinth);
    wanted.called(
        rng,
        walked,
        |rng| sound_guarded_call(rng, &draft),
        |rng| damaged_guarded_call(rng, &draft),
    )
}

/// It shows what is wanted, and has as few bytes as that lets it have. The whole walk, if it is
/// reached, counts little.
fn fits(call: &JudgeCall, wanted: Shown<Event>) -> bool {
    let most = match wanted {
        Shown::Event(Event::MostGuards) => FULL_BYTES,
        _ => BYTES,
    };
    let light = |guarded| walk_guarded(&guarded, COUNT) != Ok(Verdict::Over);
    wanted.is_shown(call, most, judge_guarded_line, events)
        && open_guarded(&call.request).map_or(true, light)
}

//! Small random values calls with their answers as rows of text, for others to compute again, one per
//! line: `V REQUEST LENT BUDGET NUMBER INPUT PLACE COUNT STATE`.
//!
//! All is written as in `rows.rs`, but for the line, which these answers don't carry. All numbers and events come
//! round in 150 rows. Requests have at most 150 bytes; one with item 1,025, one that is too long, and ones with 128
//! fluents, 128 facts and sixteen literals in a body stand in the first round only.

use super::call::{judge_values, open_valued};
use super::calls::{damaged_values_call, sound_values_call};
use super::generate::{drawn, full};
use super::run::{events, made, Event};
use super::translate::spelled;
use super::walk::walk;
use super::Valued;
use crate::calls::JudgeCall;
use crate::generate;
use crate::rng::Rng;
use crate::rows::Shown::{self, Number};
use crate::rows::{small_shape, spread_shape, tell_bytes, tell_state, Series};
use crate::walk::Verdict;

/// Most bytes of a request.
const BYTES: usize = 150;
/// Most bytes of a request with 128 fluents, and of one with 128 facts, goals and whether entries.
const WIDE_BYTES: usize = 400;
const FULL_BYTES: usize = 1_000;
/// Largest count of a walk.
const COUNT: u32 = 500;

/// How often each comes in a round of calls.
const VALUES: [(Shown<Event>, u64); 46] = [
    (Number(0), 15),
    (Number(1), 12),
    (Number(2), 6),
    (Number(3), 4),
    (Shown::Event(Event::ValuesEnd), 2),
    (Shown::Event(Event::TooFewValues), 2),
    (Shown::Event(Event::TooManyValues), 2),
    (Shown::Event(Event::FluentTooLarge), 2),
    (Shown::Event(Event::FluentTooLargeAtEnd), 2),
    (Shown::Event(Event::ValueTooLarge), 3),
    (Shown::Event(Event::SecondMissing), 2),
    (Shown::Event(Event::FluentsNotAscending), 2),
    (Shown::Event(Event::SayingsNotAscending), 2),
    (Shown::Event(Event::NoneLeftByIs), 2),
    (Shown::Event(Event::NoneLeftByIsNot), 2),
    (Shown::Event(Event::NoneLeftByMany), 2),
    (Shown::Event(Event::SaysIsNotAtEnd), 1),
    (Shown::Event(Event::ContradictInNoWorld), 2),
    (Shown::Event(Event::ClashApart), 5),
    (Shown::Event(Event::ApartTogether), 5),
    (Shown::Event(Event::NamedTwice), 4),
    (Shown::Event(Event::TwoValued), 4),
    (Shown::Event(Event::TwoValuedNamedTwice), 3),
    (Shown::Event(Event::KnownByIsNot), 3),
    (Shown::Event(Event::Forgotten), 3),
    (Shown::Event(Event::FactMissed), 3),
    (Shown::Event(Event::ExcludedRead), 3),
    (Shown::Event(Event::ReadsThree), 4),
    (Shown::Event(Event::ReadsSixteen), 2),
    (Shown::Event(Event::ReadsSeveral), 4),
    (Shown::Event(Event::FollowedByIsNot), 4),
    (Shown::Event(Event::KeptBySame), 3),
    (Shown::Event(Event::Lost), 3),
    (Shown::Event(Event::SetBySeveral), 3),
    (Shown::Event(Event::StuckAtAction), 3),
    (Shown::Event(Event::StuckAtBranching), 3),
    (Shown::Event(Event::JustEnough), 4),
    (Shown::Event(Event::OneTooFew), 4),
    (Number(9), 1),
    (Number(12), 2),
    (Number(13), 2),
    (Number(16), 2),
    (Number(17), 2),
    (Number(18), 2),
    (Number(20), 2),
    (Number(46), 2),
];

/// Those that take long requests, and 19, which stand in the first round only.
const LONG: [Shown<Event>; 6] = [
    Number(10),
    Number(19),
    Number(21),
    Shown::Event(Event::FullBody),
    Shown::Event(Event::MostFacts),
    Shown::Event(Event::MostFluents),
];

const ROWS: Series<Shown<Event>, JudgeCall> = Series {
    streams: [61, 62],
    often: &VALUES,
    first: &LONG,
    draw,
    fits,
    tell: |call| {
        let words = format!("V {}", tell_bytes(&call.request));
        tell_state(&words, call, &made(call))
    },
};

/// So many rows.
pub fn values_rows(seed: u64, count: u64) -> impl Iterator<Item = String> {
    ROWS.rows(seed, count)
}

/// A call that may show what is wanted.
fn draw(rng: &mut Rng, wanted: Shown<Event>) -> JudgeCall {
    let draft = draft(rng, wanted);
    let walked = match wanted {
        Number(number) => number < 4,
        Shown::Event(event) => event >= Event::ClashApart,
    };
    wanted.called(
        rng,
        walked,
        |rng| sound_values_call(rng, &draft),
        |rng| damaged_values_call(rng, &draft),
    )
}

fn draft(rng: &mut Rng, wanted: Shown<Event>) -> Valued {
    let shape = *small_shape(rng);
    match wanted {
        Shown::Event(Event::MostFacts) => full(rng),
        Shown::Event(Event::MostFluents) => {
            let shape = spread_shape(rng);
            drawn(rng, &shape)
        }
        Shown::Event(Event::TwoValued) if rng.chance(50) => {
            let request = generate::drawn(rng, &shape);
            spelled(rng, &request)
        }
        _ => drawn(rng, &shape),
    }
}

/// It shows what is wanted, and has as few bytes as that lets it have. The whole walk, if it is reached,
/// counts little.
fn fits(call: &JudgeCall, wanted: Shown<Event>) -> bool {
    let most = match wanted {
        Shown::Event(Event::MostFacts) => FULL_BYTES,
        Shown::Event(Event::MostFluents) => WIDE_BYTES,
        _ => BYTES,
    };
    let light = |valued: Valued| walk(&valued, COUNT) != Verdict::Over;
    let judge = |request: &[u8], lent: &mut [u8], budget| (judge_values(request, lent, budget), 0);
    wanted.is_shown(call, most, judge, events) && open_valued(&call.request).map_or(true, light)
}

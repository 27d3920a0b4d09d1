//! Small random guides with what their calls answer as rows of text, for others to compute again, one per line:
//! `O REQUEST BUDGET NUMBER INPUT PLACE COUNT CALLS TOLD`.
//!
//! REQUEST, BUDGET and the four numbers of the start are written as in `rows.rs`. CALLS are the readings of one call after
//! another, with `;` between them, and TOLD what each answers: `do,A`, `done` or `no,NUMBER,INPUT,PLACE,COUNT`, each
//! with `:` and the fluents of which the call after it brings readings. All numbers come round in 150 rows, and the events
//! but for the 1,024th action; item 1,025, a request that is too long and readings of 128 fluents stand in the first round
//! only. Requests have at most 120 bytes, walks count at most 300, and there are at most 12 calls, most of them with 20 readings
//! or fewer.

use super::call::{Told, AGAINST_KNOWN, NOT_VERIFIED, WRONG_NUMBER};
use super::calls::{carefully, looking_again, many_readings};
use super::follower::Event;
use super::trials::{trial_of, Trial};
use crate::calls::{damaged_judge_call, sound_judge_call};
use crate::derives::calls::call_of;
use crate::generate::{drawn, Shape};
use crate::model::Request;
use crate::open;
use crate::rng::Rng;
use crate::rows::Shown::{self, Number};
use crate::rows::{small_shape, tell_bytes, too_long, Series, BYTES, FULL_BYTES, LONG_BYTES};
use crate::text::comma_separated;
use crate::walk::{walk, Verdict};

/// Largest count of a walk.
const COUNT: u32 = 300;
/// Most calls, and most readings of one, but where far more are wanted.
const CALLS: usize = 12;
const READINGS: usize = 20;

type Wanted = Shown<Event>;

const fn shows(event: Event) -> Wanted {
    Shown::Event(event)
}

/// How often each comes in a round.
const GUIDED: [(Wanted, u64); 45] = [
    (Number(0), 13),
    (Number(NOT_VERIFIED), 8),
    (Number(WRONG_NUMBER), 8),
    (Number(AGAINST_KNOWN), 8),
    (Number(11), 2),
    (Number(12), 2),
    (Number(13), 2),
    (Number(14), 2),
    (Number(15), 1),
    (Number(16), 2),
    (Number(17), 2),
    (Number(18), 2),
    (Number(19), 1),
    (Number(20), 1),
    (shows(Event::FirstAction), 3),
    (shows(Event::AfterAction), 3),
    (shows(Event::AfterReadings), 5),
    (shows(Event::DoneAtOnce), 3),
    (shows(Event::DoneAfterAction), 3),
    (shows(Event::DoneAfterReadings), 4),
    (shows(Event::DoneAgain), 4),
    (shows(Event::ReadingsAtFirst), 2),
    (shows(Event::ReadingsAfterAction), 2),
    (shows(Event::WrongAtEnd), 3),
    (shows(Event::OneFewer), 2),
    (shows(Event::OneMore), 2),
    (shows(Event::NoneOfSome), 2),
    (shows(Event::FarMore), 1),
    (shows(Event::WrongThoughAgainst), 3),
    (shows(Event::OnlyAgainst), 3),
    (shows(Event::FirstAgainst), 3),
    (shows(Event::LastAgainst), 3),
    (shows(Event::TwoAgainst), 3),
    (shows(Event::AgainstBehindUnknown), 4),
    (shows(Event::AgainstBeforeUnknown), 4),
    (shows(Event::AgainstAtEnd), 3),
    (shows(Event::KnownRead), 3),
    (shows(Event::UnknownRead), 3),
    (shows(Event::BothRead), 3),
    (shows(Event::ManyUnknownRead), 3),
    (shows(Event::OtherYes), 4),
    (shows(Event::SaidTwice), 4),
    (shows(Event::OtherOrder), 4),
    (shows(Event::Branched), 4),
    (shows(Event::BranchedTwice), 3),
];

/// Those that take long requests, which stand in the first round only.
const LONG: [Wanted; 3] = [Number(10), Number(21), shows(Event::MostRead)];

/// The event that no row has to show, since it takes a long plan and as many calls.
pub const NOT_SHOWN: [Event; 1] = [Event::MostActions];

const ROWS: Series<Wanted, Trial> = Series {
    streams: [42, 43],
    often: &GUIDED,
    first: &LONG,
    draw,
    fits,
    tell,
};

/// So many rows.
pub fn guided_rows(seed: u64, count: u64) -> impl Iterator<Item = String> {
    ROWS.rows(seed, count)
}

/// A trial that may show what is wanted.
fn draw(rng: &mut Rng, wanted: Wanted) -> Trial {
    let shape = Shape {
        spread: 5,
        ..*small_shape(rng)
    };
    let mut call = match wanted {
        Number(NOT_VERIFIED) => {
            let draft = drawn(rng, &shape);
            sound_judge_call(rng, &draft)
        }
        Number(10..=21) => {
            let draft = drawn(rng, &shape);
            damaged_judge_call(rng, &draft)
        }
        Shown::Event(Event::MostRead) => {
            let draft = many_readings(rng);
            call_of(rng, &draft)
        }
        _ => {
            let draft = verified(rng, &shape);
            call_of(rng, &draft)
        }
    };
    if let Number(10) = wanted {
        too_long(rng, &mut call.request);
    }
    trial_of(rng, call.request, call.budget)
}

/// A request that is mostly verified, of which some look at what they know.
fn verified(rng: &mut Rng, shape: &Shape) -> Request {
    let mut draft = drawn(rng, &carefully(shape));
    if rng.chance(5) {
        draft.plan.clear();
    }
    match rng.chance(60) {
        true => looking_again(rng, draft),
        false => draft,
    }
}

/// It shows what is wanted, and is as small as that lets it be.
fn fits(trial: &Trial, wanted: Wanted) -> bool {
    let most = match wanted {
        Number(10) => usize::MAX,
        Number(21) => LONG_BYTES,
        Shown::Event(Event::MostRead) => FULL_BYTES,
        _ => BYTES,
    };
    let readings = match wanted {
        Shown::Event(Event::MostRead | Event::FarMore) => usize::MAX,
        _ => READINGS,
    };
    let light = |request| walk(&request, COUNT) != Verdict::Over;
    trial.request.len() <= most
        && trial.calls.len() <= CALLS
        && trial.calls.iter().all(|it| it.len() <= readings)
        && open(&trial.request).map_or(true, light)
        && is_shown(trial, wanted)
}

/// A number is that of the start, or 41 or 42 of a call.
fn is_shown(trial: &Trial, wanted: Wanted) -> bool {
    match wanted {
        Number(number @ (WRONG_NUMBER | AGAINST_KNOWN)) => {
            let answers = trial.answers();
            let mut calls = answers.calls.iter();
            calls.any(|(told, _)| told.number() == number)
        }
        Number(number) => trial.answers().start.number == number,
        Shown::Event(event) => trial.events().contains(&event),
    }
}

fn tell(trial: &Trial) -> String {
    let answers = trial.answers();
    let calls: Vec<String> = trial.calls.iter().map(|it| comma_separated(it)).collect();
    let told: Vec<String> = answers.calls.iter().map(tell_call).collect();
    format!(
        "O {} {} {} {} {}",
        tell_bytes(&trial.request),
        trial.budget,
        answers.start,
        calls.join(";"),
        told.join(";")
    )
}

/// What a call answers, and the fluents that are asked for then.
fn tell_call((told, asked): &(Told, Vec<u8>)) -> String {
    let asked = comma_separated(asked);
    match told {
        Told::Do(action) => format!("do,{action}:{asked}"),
        Told::Done => format!("done:{asked}"),
        Told::Refused(answer) => {
            let numbers = answer.to_string().replace(' ', ",");
            format!("no,{numbers}:{asked}")
        }
    }
}

//! A run of guarded calls: each answer against a second walk, the plain call, the worlds and what is
//! certain of it, and the tallies.

use super::call::{judge_guarded_line, open_guarded};
use super::calls::guarded_call;
use crate::answer::Answer;
use crate::calls::{judge_call, JudgeCall, Left};
use crate::encode::encode_guarded;
use crate::model::{is_positive, Guarded};
use crate::reader::{
    last_of_guarded, read_guarded, read_request, Part, GUARD_LIMIT, REQUEST_LIMIT,
};
use crate::rng::Rng;
use crate::run::{expect_bytes, expect_made, told, LEAST_SHARE, MOST_PATHS};
use crate::tally::{so, CarriedOut, Checked, Differences, Occurred, SecondWalks};
use crate::walk::walk_guarded;
use crate::{judge_line, paths, worlds};

/// The answer to a state that lacks a guard.
pub const BROKEN: u8 = 43;
/// The answers that a run must meet at least once.
pub const NUMBERS: [u8; 18] = [
    0, 1, 2, 3, 9, 10, 11, 12, 13, 14, 15, 16, 17, 18, 19, 20, 21, BROKEN,
];

/// What a call has been through, told from the call and its answer.
#[derive(Clone, Copy, Debug, PartialEq, Eq, PartialOrd, Ord)]
pub enum Event {
    /// The first state lacks a guard, and also where the budget is 0.
    BrokenAtStart,
    BrokenWithBudget0,
    /// A state lacks one whose next item could be run; one after a reading that is not the first
    /// tried; an end state; a state whose next item can't be run; one after an end state that misses
    /// an entry.
    BrokenMidway,
    BrokenAfterLaterReading,
    BrokenAtEnd,
    BrokenBeforeStop,
    BrokenAfterMiss,
    /// The guard lacking is unknown, or known false; it is not the first of the list.
    BrokenByUnknown,
    BrokenByFalse,
    BrokenLaterGuard,
    /// The count is the budget.
    BrokenAtBudget,
    /// 3, and the action that takes the count over the budget leads to a state that lacks a guard.
    SpentBeforeBroken,
    /// 0, 1, 2 and 3 though there are guards.
    VerifiedWithGuards,
    MissedWithGuards,
    StuckWithGuards,
    SpentWithGuards,
    /// No guards, and as many as there can be, without fault.
    NoGuards,
    MostGuards,
    /// The largest literal is a guard, without fault.
    LastLiteral,
    /// 11 where the eight sections of a plain request end.
    NoNinth,
    /// 11 to 15 in the ninth section, of these 12 at a count of 65, and 20 behind it.
    NinthEnds,
    NinthTooLong,
    NinthCount65,
    NinthTooLarge,
    NinthNotAscending,
    NinthComplement,
    BytesBehind,
}

impl Event {
    pub const ALL: [Event; 27] = [
        Event::BrokenAtStart,
        Event::BrokenWithBudget0,
        Event::BrokenMidway,
        Event::BrokenAfterLaterReading,
        Event::BrokenAtEnd,
        Event::BrokenBeforeStop,
        Event::BrokenAfterMiss,
        Event::BrokenByUnknown,
        Event::BrokenByFalse,
        Event::BrokenLaterGuard,
        Event::BrokenAtBudget,
        Event::SpentBeforeBroken,
        Event::VerifiedWithGuards,
        Event::MissedWithGuards,
        Event::StuckWithGuards,
        Event::SpentWithGuards,
        Event::NoGuards,
        Event::MostGuards,
        Event::LastLiteral,
        Event::NoNinth,
        Event::NinthEnds,
        Event::NinthTooLong,
        Event::NinthCount65,
        Event::NinthTooLarge,
        Event::NinthNotAscending,
        Event::NinthComplement,
        Event::BytesBehind,
    ];
}

/// The events of a call.
pub fn events(request: &[u8], budget: u32, answer: Answer) -> Vec<Event> {
    so(match answer.number {
        0..=3 | BROKEN => match open_guarded(request) {
            Ok(guarded) => of_walk(&guarded, budget, answer),
            Err(_) => Vec::new(),
        },
        11..=15 | 20 => of_reading(request, answer),
        _ => Vec::new(),
    })
}

fn of_walk(guarded: &Guarded, budget: u32, answer: Answer) -> Vec<(bool, Event)> {
    let guards = &guarded.guards;
    let with = |number| answer.number == number && !guards.is_empty();
    let spent = || walk_guarded(guarded, budget.saturating_add(1));
    let mut all = vec![
        (with(0), Event::VerifiedWithGuards),
        (with(1), Event::MissedWithGuards),
        (with(2), Event::StuckWithGuards),
        (with(3), Event::SpentWithGuards),
        (with(3) && spent().is_err(), Event::SpentBeforeBroken),
        (guards.is_empty(), Event::NoGuards),
        (guards.len() == GUARD_LIMIT, Event::MostGuards),
        (guards.last() == Some(&255), Event::LastLiteral),
    ];
    if let (BROKEN, Err(broken)) = (answer.number, walk_guarded(guarded, budget)) {
        let met = broken.met;
        let index = broken.place - guarded.guards_place - 1;
        let unknown = broken.state.mark(guards[index] / 2) == 0;
        let start = broken.count == 0;
        all.extend([
            (start, Event::BrokenAtStart),
            (budget == 0, Event::BrokenWithBudget0),
            (
                !(start || met.at_end || met.before_stop),
                Event::BrokenMidway,
            ),
            (met.later_reading, Event::BrokenAfterLaterReading),
            (met.at_end, Event::BrokenAtEnd),
            (met.before_stop, Event::BrokenBeforeStop),
            (met.after_miss, Event::BrokenAfterMiss),
            (unknown, Event::BrokenByUnknown),
            (!unknown, Event::BrokenByFalse),
            (index > 0, Event::BrokenLaterGuard),
            (
                !start && broken.count == u64::from(budget),
                Event::BrokenAtBudget,
            ),
        ]);
    }
    all
}

fn of_reading(request: &[u8], answer: Answer) -> Vec<(bool, Event)> {
    let ninth = last_of_guarded(request) == Part::Guards;
    let at = |number| ninth && answer.number == number;
    let byte = request.get(answer.place as usize).copied();
    let none = read_request(request).is_ok();
    vec![
        (at(11) && none, Event::NoNinth),
        (at(11) && !none, Event::NinthEnds),
        (at(12), Event::NinthTooLong),
        (
            at(12) && byte == Some(GUARD_LIMIT as u8 + 1),
            Event::NinthCount65,
        ),
        (at(13), Event::NinthTooLarge),
        (at(14), Event::NinthNotAscending),
        (at(15), Event::NinthComplement),
        (at(20), Event::BytesBehind),
    ]
}

/// How often each thing happened.
#[derive(Clone, Debug, Default)]
pub struct Tally {
    occurred: Occurred<Event>,
    second_walks: SecondWalks,
    carried_out: CarriedOut,
    broken_though_held: u64,
    differences: Differences,
}

/// Makes so many calls from a seed.
pub fn run(seed: u64, calls: u64) -> Tally {
    let mut tally = Tally::default();
    for index in 0..calls {
        let rng = &mut Rng::new(seed, 19, index);
        let call = guarded_call(rng);
        let made = tally.judge(&call).and_then(|()| without_guards(rng));
        if let Err(difference) = made {
            tally.differences.add(format!(
                "guarded request {index}: {difference}: {}",
                told(&call.request)
            ));
        }
    }
    tally
}

impl Tally {
    /// Notes a call with its answer.
    pub fn note(&mut self, request: &[u8], budget: u32, answer: Answer) {
        let events = events(request, budget, answer);
        self.occurred.note(answer.number, events);
    }

    /// Makes a guarded call and checks its answer.
    fn judge(&mut self, call: &JudgeCall) -> Result<(), String> {
        let left = call.made(judge_guarded_line);
        let answer = left.answer;
        self.note(&call.request, call.budget, answer);
        expect_made(call, &left, Some(BROKEN))?;
        compare_plain(call, &left)?;
        if !matches!(answer.number, 0..=3 | BROKEN) {
            return Ok(());
        }
        let guarded = open_guarded(&call.request).map_err(|_| format!("answer {answer} unread"))?;
        expect_bytes(&encode_guarded(&guarded).bytes, &call.request)?;
        expect_lacking(&guarded, answer, &left.lent)?;
        let second = paths::answer_guarded(&guarded, call.budget, MOST_PATHS);
        self.second_walks.compare(second, &left)?;
        self.compare_worlds(&guarded, answer)
    }

    /// A verified plan works in every true world, and the guards hold in each that is possible.
    fn compare_worlds(&mut self, guarded: &Guarded, answer: Answer) -> Result<(), String> {
        let held = self.carried_out.note(&guarded.request, answer, || {
            worlds::carry_out_guarded(guarded)
        })?;
        self.broken_though_held += u64::from(held && answer.number == BROKEN);
        Ok(())
    }
}

impl Checked for Tally {
    fn found(&self) -> &Differences {
        &self.differences
    }

    fn never_met(&self) -> Vec<String> {
        let never = self.occurred.never(&NUMBERS, "with guards", &Event::ALL);
        never.collect()
    }

    fn none_rare(&self) -> Result<(), String> {
        self.occurred.none_rare(&[0, 1, 2, 3, BROKEN], LEAST_SHARE)
    }

    fn report(&self) -> String {
        let numbers = [
            (
                "guarded walks compared with the second walk",
                self.second_walks.compared(),
            ),
            (
                "verified with the guards held in all worlds",
                self.carried_out.plans(),
            ),
            (
                "true worlds of these guarded requests",
                self.carried_out.worlds(),
            ),
            (
                "answer 43 though every world holds the guards",
                self.broken_though_held,
            ),
        ];
        self.differences.report() + &self.occurred.report("guarded requests judged", &numbers)
    }
}

/// The state left by 43 lacks the guard at the place and none before it; that of every other answer
/// is none of these calls' to tell.
fn expect_lacking(guarded: &Guarded, answer: Answer, lent: &[u8]) -> Result<(), String> {
    if answer.number != BROKEN {
        return Ok(());
    }
    let lacks = |&guard: &u8| {
        let wanted = if is_positive(guard) { 1 } else { 2 };
        lent[usize::from(guard / 2)] != wanted
    };
    let first = guarded.guards.iter().position(lacks);
    match first.map(|index| guarded.guards_place + 1 + index) {
        Some(place) if place == answer.place as usize => Ok(()),
        other => Err(format!(
            "answer {answer}, and the state left lacks {other:?}"
        )),
    }
}

/// The plain call on the same bytes gives 20 at the ninth section's count where eight sections can be
/// read and more follows, and the same refusal where they can't; and the plain call on the eight
/// sections of a request that is settled answers and leaves what the guarded call does, unless that
/// is 43.
fn compare_plain(call: &JudgeCall, left: &Left) -> Result<(), String> {
    let answer = left.answer;
    let plain = |request: &[u8]| call.made(|_, lent, budget| judge_line(request, lent, budget));
    let same = plain(&call.request).answer;
    let ends = match same.number {
        9 | 10 => None,
        20 => Some(same.place as usize),
        _ if read_request(&call.request).is_ok() => Some(call.request.len()),
        _ => None,
    };
    let Some(ends) = ends else {
        return match same == answer {
            true => Ok(()),
            false => Err(format!("answer {answer}, by the plain call {same}")),
        };
    };
    let missing = ends == call.request.len();
    if missing && (answer.number, answer.place as usize) != (11, ends) {
        return Err(format!("answer {answer} without a ninth section"));
    }
    if read_guarded(&call.request).is_ok_and(|guarded| guarded.guards_place != ends) {
        return Err(format!(
            "by the plain call {same}, and the guards are elsewhere"
        ));
    }
    if !matches!(answer.number, 0..=3 | 16..=18) {
        return Ok(());
    }
    match plain(&call.request[..ends]) == *left {
        true => Ok(()),
        false => Err(format!("answer {answer}, and without guards another")),
    }
}

/// Where a plain call of any bytes is answered with another number than 10, 11 and 20, the guarded
/// call answers the same bytes with a 0 behind them alike, and leaves the same lent state.
fn without_guards(rng: &mut Rng) -> Result<(), String> {
    let call = judge_call(rng);
    let left = call.made(judge_line);
    let answer = left.answer;
    if matches!(answer.number, 10 | 11 | 20) || call.request.len() >= REQUEST_LIMIT {
        return Ok(());
    }
    let longer = [&call.request[..], &[0]].concat();
    match call.made(|_, lent, budget| judge_guarded_line(&longer, lent, budget)) == left {
        true => Ok(()),
        false => Err(format!("no guards: by the plain call {answer}")),
    }
}

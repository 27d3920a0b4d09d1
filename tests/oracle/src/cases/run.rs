//! A run of calls by cases: each answer against a second walk, the walk call, the worlds and what is
//! certain of it, and the tallies.

use super::call::{judge_by_cases_line, TOO_MANY};
use super::calls::cases_call;
use super::way::{open_fluents, walk_by_cases, walk_filling, Filled, CASE_LIMIT};
use crate::answer::Answer;
use crate::calls::JudgeCall;
use crate::encode::encode_request;
use crate::model::Request;
use crate::rng::Rng;
use crate::run::{expect_bytes, expect_made, told, LEAST_SHARE, MOST_PATHS};
use crate::table::{Known, Table};
use crate::tally::{so, CarriedOut, Checked, Differences, Occurred, SecondWalks};
use crate::walk::{walk, TooMany, Verdict};
use crate::{judge_line, open, paths, worlds};

/// The answers that a run must meet at least once.
pub const NUMBERS: [u8; 18] = [
    0, 1, 2, 3, 9, 10, 11, 12, 13, 14, 15, 16, 17, 18, 19, 20, 21, TOO_MANY,
];
/// Least share of those that the call by cases verifies and the walk call doesn't, in per cent of all.
const LEAST_ONLY: u64 = 20;

/// What a call has been through, told from the call and its answer.
#[derive(Clone, Copy, Debug, PartialEq, Eq, PartialOrd, Ord)]
pub enum Event {
    /// 0 where the walk call gives 1, where it gives 2, and where it gives 3.
    VerifiedThoughMissed,
    VerifiedThoughStuck,
    VerifiedThoughSpent,
    /// 0 where the walk call gives it too; with a smaller count.
    VerifiedByBoth,
    VerifiedWithLess,
    /// 1 where the walk call gives 2.
    MissedThoughStuck,
    /// 2 at an action that can be run in some filling, or in none; at a branching.
    StuckInSome,
    StuckInNone,
    StuckAtBranching,
    /// 0 or 1, and an action was run of which no executability line is known true; one that senses.
    RunByLines,
    SensedByLines,
    /// 0 or 1, and an action was run that has as many open fluents as it may.
    TwelveOpen,
    /// 44 with one open fluent more than there may be, and with more of them.
    ThirteenOpen,
    MoreOpen,
    /// 44 before anything is counted, there also with budget 0; after something is counted, there also
    /// where that is the budget; after an end state that misses an entry.
    TooManyAtStart,
    TooManyWithBudget0,
    TooManyLater,
    TooManyAtBudget,
    TooManyAfterMiss,
    /// 44 though there are few open fluents but for bodies that are known false; though an executability line
    /// is known true; where there is none; where there are some and none is known true.
    TooManyByFalse,
    TooManyThoughAllowed,
    TooManyWithoutLine,
    TooManyBeforeStop,
    /// 44 at an action that senses.
    TooManyOfSensing,
    /// 44 where the walk call gives 0.
    TooManyThoughVerified,
    /// 3, and the next thing would be 44.
    SpentBeforeTooMany,
}

impl Event {
    pub const ALL: [Event; 26] = [
        Event::VerifiedThoughMissed,
        Event::VerifiedThoughStuck,
        Event::VerifiedThoughSpent,
        Event::VerifiedByBoth,
        Event::VerifiedWithLess,
        Event::MissedThoughStuck,
        Event::StuckInSome,
        Event::StuckInNone,
        Event::StuckAtBranching,
        Event::RunByLines,
        Event::SensedByLines,
        Event::TwelveOpen,
        Event::ThirteenOpen,
        Event::MoreOpen,
        Event::TooManyAtStart,
        Event::TooManyWithBudget0,
        Event::TooManyLater,
        Event::TooManyAtBudget,
        Event::TooManyAfterMiss,
        Event::TooManyByFalse,
        Event::TooManyThoughAllowed,
        Event::TooManyWithoutLine,
        Event::TooManyBeforeStop,
        Event::TooManyOfSensing,
        Event::TooManyThoughVerified,
        Event::SpentBeforeTooMany,
    ];
}

/// The events of a call.
pub fn events(request: &[u8], budget: u32, answer: Answer) -> Vec<Event> {
    so(match (answer.number, open(request)) {
        (0..=3 | TOO_MANY, Ok(read)) => of_walk(&read, request, budget, answer),
        _ => Vec::new(),
    })
}

fn of_walk(request: &Request, bytes: &[u8], budget: u32, answer: Answer) -> Vec<(bool, Event)> {
    let (ended, met) = walk_filling(request, budget, Filled::AllIfFew);
    let walked = walk(request, budget);
    let gives = |number| answer.number == number;
    let by_walk = |number| number == number_of(walked);
    let to_end = gives(0) || gives(1);
    let branching = gives(2) && bytes[answer.place as usize] == 255;
    let stuck = gives(2) && !branching;
    let less = walked
        .count()
        .is_some_and(|count| u64::from(answer.count) < count);
    let next = || walk_by_cases(request, budget.saturating_add(1));
    let mut all = vec![
        (gives(0) && by_walk(1), Event::VerifiedThoughMissed),
        (gives(0) && by_walk(2), Event::VerifiedThoughStuck),
        (gives(0) && by_walk(3), Event::VerifiedThoughSpent),
        (gives(0) && by_walk(0), Event::VerifiedByBoth),
        (gives(0) && by_walk(0) && less, Event::VerifiedWithLess),
        (gives(1) && by_walk(2), Event::MissedThoughStuck),
        (stuck && met.stuck_in_some, Event::StuckInSome),
        (stuck && !met.stuck_in_some, Event::StuckInNone),
        (branching, Event::StuckAtBranching),
        (to_end && met.run_by_lines, Event::RunByLines),
        (to_end && met.sensed_by_lines, Event::SensedByLines),
        (to_end && met.most_open == CASE_LIMIT, Event::TwelveOpen),
        (gives(3) && next().is_err(), Event::SpentBeforeTooMany),
    ];
    if let Err(too_many) = ended {
        all.extend(of_too_many(request, budget, too_many));
        all.push((by_walk(0), Event::TooManyThoughVerified));
    }
    all
}

fn of_too_many(request: &Request, budget: u32, at: TooMany) -> Vec<(bool, Event)> {
    let table = Table::new(request);
    let open = open_fluents(&table, at.action, at.state).count_ones();
    let bodies = table.allowing(at.action).chain(table.bringing(at.action));
    let possible = bodies.filter(|&body| at.state.allows(body));
    let of_these = possible.fold(0, |all, body: Known| all | body.marked()) & !at.state.marked();
    let allowed = table.runnable(at.action, at.state);
    let lines = table.allowing(at.action).next().is_some();
    let start = at.count == 0;
    vec![
        (open == CASE_LIMIT + 1, Event::ThirteenOpen),
        (open > CASE_LIMIT + 1, Event::MoreOpen),
        (start, Event::TooManyAtStart),
        (start && budget == 0, Event::TooManyWithBudget0),
        (!start, Event::TooManyLater),
        (
            !start && at.count == u64::from(budget),
            Event::TooManyAtBudget,
        ),
        (at.after_miss, Event::TooManyAfterMiss),
        (of_these.count_ones() <= CASE_LIMIT, Event::TooManyByFalse),
        (allowed, Event::TooManyThoughAllowed),
        (!lines, Event::TooManyWithoutLine),
        (lines && !allowed, Event::TooManyBeforeStop),
        (table.senses(at.action) != 0, Event::TooManyOfSensing),
    ]
}

fn number_of(verdict: Verdict) -> u8 {
    match verdict {
        Verdict::Verified { .. } => 0,
        Verdict::Missed { .. } => 1,
        Verdict::Stuck { .. } => 2,
        Verdict::Over => 3,
    }
}

/// How often each thing happened.
#[derive(Clone, Debug, Default)]
pub struct Tally {
    occurred: Occurred<Event>,
    only_by_cases: u64,
    second_walks: SecondWalks,
    carried_out: CarriedOut,
    missed_though_reached: u64,
    differences: Differences,
}

/// Makes so many calls from a seed.
pub fn run(seed: u64, calls: u64) -> Tally {
    let mut tally = Tally::default();
    for index in 0..calls {
        let call = cases_call(&mut Rng::new(seed, 24, index));
        if let Err(difference) = tally.judge(&call) {
            tally.differences.add(format!(
                "request by cases {index}: {difference}: budget {}: {}",
                call.budget,
                told(&call.request)
            ));
        }
    }
    tally
}

impl Tally {
    /// Notes a call with its answer.
    pub fn note(&mut self, request: &[u8], budget: u32, answer: Answer) {
        let events = events(request, budget, answer);
        let only = [
            Event::VerifiedThoughMissed,
            Event::VerifiedThoughStuck,
            Event::VerifiedThoughSpent,
        ];
        self.only_by_cases += u64::from(events.iter().any(|event| only.contains(event)));
        self.occurred.note(answer.number, events);
    }

    /// Makes a call by cases and checks its answer.
    fn judge(&mut self, call: &JudgeCall) -> Result<(), String> {
        let left = call.made(judge_by_cases_line);
        let answer = left.answer;
        self.note(&call.request, call.budget, answer);
        expect_made(call, &left, Some(TOO_MANY))?;
        compare_plain(call, answer)?;
        if !matches!(answer.number, 0..=3 | TOO_MANY) {
            return Ok(());
        }
        let request = open(&call.request).map_err(|_| format!("answer {answer} unread"))?;
        expect_bytes(&encode_request(&request).bytes, &call.request)?;
        // The second walk fills open fluents only.
        let second = paths::answer_by_cases(&request, call.budget, MOST_PATHS);
        self.second_walks.compare(second, &left)?;
        let worlds = || worlds::carry_out(&request);
        let reached = self.carried_out.note(&request, answer, worlds)?;
        self.missed_though_reached += u64::from(reached);
        Ok(())
    }

    /// How many the call by cases verifies and the walk call doesn't.
    pub fn only_by_cases(&self) -> u64 {
        self.only_by_cases
    }
}

impl Checked for Tally {
    fn found(&self) -> &Differences {
        &self.differences
    }

    fn never_met(&self) -> Vec<String> {
        let only = self.only_by_cases * 100 < self.occurred.calls() * LEAST_ONLY;
        let only = only.then(|| format!("verified by cases only in {LEAST_ONLY} per cent"));
        let never = self.occurred.never(&NUMBERS, "by cases", &Event::ALL);
        never.chain(only).collect()
    }

    fn none_rare(&self) -> Result<(), String> {
        self.occurred
            .none_rare(&[0, 1, 2, 3, TOO_MANY], LEAST_SHARE)
    }

    fn report(&self) -> String {
        let numbers = [
            ("verified by cases only", self.only_by_cases),
            (
                "walks by cases compared with the second walk",
                self.second_walks.compared(),
            ),
            (
                "walks by cases too large for the second walk",
                self.second_walks.left(),
            ),
            (
                "verified by cases and carried out in all worlds",
                self.carried_out.plans(),
            ),
            ("true worlds of these", self.carried_out.worlds()),
            (
                "verified by cases with more than ten fluents",
                self.carried_out.not_enumerated(),
            ),
            (
                "answer 1 or 2 by cases though every world reaches the goal",
                self.missed_though_reached,
            ),
        ];
        self.differences.report() + &self.occurred.report("requests judged by cases", &numbers)
    }
}

/// The walk call refuses the same requests alike, and where it verifies, the call by cases does so too,
/// with no larger count, unless there are too many cases.
fn compare_plain(call: &JudgeCall, answer: Answer) -> Result<(), String> {
    let plain = call.made(judge_line).answer;
    let right = match (plain.number, answer.number) {
        (_, TOO_MANY) => plain.number <= 3,
        (0, 0) => answer.count <= plain.count,
        (0, _) => false,
        (1..=3, _) => answer.number <= 3,
        _ => answer == plain,
    };
    match right {
        true => Ok(()),
        false => Err(format!("answer {answer}, by the walk call {plain}")),
    }
}

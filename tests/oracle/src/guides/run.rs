//! A run of guides: each start against the walk call, each verified plan followed by its guide in every world and by any
//! readings, with refused calls before each call, and the tallies.

use super::call::{start, Guide, Told, AGAINST_KNOWN, NOT_VERIFIED, WRONG_NUMBER};
use super::calls::guide_call;
use super::course::InWorlds;
use super::follower::{Event, Follower};
use super::trials::{against, any_readings, reading, wrong_numbers};
use crate::answer::Answer;
use crate::calls::JudgeCall;
use crate::model::Request;
use crate::reader::{ITEM_LIMIT, REQUEST_LIMIT};
use crate::rng::Rng;
use crate::run::{expect_form, expect_outlook, told, LEAST_SHARE};
use crate::tally::{so, titled, Checked, Differences, Occurred};
use crate::worlds::{Carrier, Failure, WORLD_FLUENTS};
use crate::{judge_line, open, STATE_LENGTH};

/// The answers of starts that a run must meet at least once.
pub const STARTS: [u8; 14] = [
    0,
    10,
    11,
    12,
    13,
    14,
    15,
    16,
    17,
    18,
    19,
    20,
    21,
    NOT_VERIFIED,
];

/// The answers of calls.
pub const CALLS: [u8; 16] = [
    0,
    10,
    11,
    12,
    13,
    14,
    15,
    16,
    17,
    18,
    19,
    20,
    21,
    NOT_VERIFIED,
    WRONG_NUMBER,
    AGAINST_KNOWN,
];

/// What a start shows.
#[derive(Clone, Copy, Debug, PartialEq, Eq, PartialOrd, Ord)]
pub enum Start {
    /// 40 where the walk call gives 1, 2 and 3, there also with budget 0.
    Missed,
    Stuck,
    Spent,
    NoBudget,
    /// 0 with a budget that is just enough; with a request that has as many bytes as there may be; with the empty plan;
    /// and with whether entries.
    JustEnough,
    Longest,
    EmptyPlan,
    Whether,
}

impl Start {
    pub const ALL: [Start; 8] = [
        Start::Missed,
        Start::Stuck,
        Start::Spent,
        Start::NoBudget,
        Start::JustEnough,
        Start::Longest,
        Start::EmptyPlan,
        Start::Whether,
    ];
}

fn start_events(call: &JudgeCall, walked: Answer, answer: Answer) -> Vec<Start> {
    let verified = match answer.number {
        0 => open(&call.request).ok(),
        _ => None,
    };
    let is = |test: fn(&Request) -> bool| verified.as_ref().is_some_and(test);
    so([
        (walked.number == 1, Start::Missed),
        (walked.number == 2, Start::Stuck),
        (walked.number == 3, Start::Spent),
        (walked.number == 3 && call.budget == 0, Start::NoBudget),
        (
            is(|_| true) && answer.count == call.budget,
            Start::JustEnough,
        ),
        (
            is(|_| true) && call.request.len() == REQUEST_LIMIT,
            Start::Longest,
        ),
        (is(|request| request.plan.is_empty()), Start::EmptyPlan),
        (is(|request| !request.whether.is_empty()), Start::Whether),
    ])
}

/// How often each thing happened.
#[derive(Clone, Debug, Default)]
pub struct Tally {
    starts: Occurred<Start>,
    calls: Occurred<Event>,
    /// Plans that were followed in all worlds, and the worlds of these; those with too many fluents for it.
    in_worlds: u64,
    worlds: u64,
    not_enumerated: u64,
    most_actions: usize,
    differences: Differences,
}

/// Starts so many guides from a seed.
pub fn run(seed: u64, calls: u64) -> Tally {
    let mut tally = Tally::default();
    for number in 0..calls {
        let rng = &mut Rng::new(seed, 40, number);
        let call = guide_call(rng);
        if let Err(difference) = tally.guide(rng, &call) {
            tally.differences.add(format!(
                "guided request {number}: {difference}: budget {}: {}",
                call.budget,
                told(&call.request)
            ));
        }
    }
    tally
}

/// A guide on its way: followed over marks, and in worlds where these can be enumerated.
#[derive(Clone)]
struct Stand<'a> {
    follower: Follower<'a>,
    worlds: Option<InWorlds<'a>>,
}

impl Tally {
    /// Starts a guide and makes its calls.
    fn guide(&mut self, rng: &mut Rng, call: &JudgeCall) -> Result<(), String> {
        let (guide, answer) = start(&call.request, call.budget);
        let (walked, _) = judge_line(&call.request, &mut [0; STATE_LENGTH], call.budget);
        let events = start_events(call, walked, answer);
        self.starts.note(answer.number, events);
        expect_form(answer, &call.request, &[])?;
        expect_outlook(walked, call.outlook)?;
        let expected = match walked.number {
            1..=3 => Answer::neither(NOT_VERIFIED, 0),
            _ => walked,
        };
        if answer != expected {
            return Err(format!("the start gives {answer}, and not {expected}"));
        }
        match open(&call.request) {
            Ok(request) if answer.number == 0 => self.follow(rng, &request, guide),
            _ => self.expect_refusing(rng, guide, answer),
        }
    }

    /// A guide that was refused gives the same answer at every call.
    fn expect_refusing(
        &mut self,
        rng: &mut Rng,
        mut guide: Guide,
        answer: Answer,
    ) -> Result<(), String> {
        for _ in 0..2 {
            let told;
            (guide, told) = guide.next(&any_readings(rng));
            self.calls.note(told.number(), Vec::new());
            if told != Told::Refused(answer) || guide != Guide::Refusing(answer) {
                return Err(format!("refused by {answer}, the guide says {told:?}"));
            }
        }
        Ok(())
    }

    /// By any readings, and where there are few fluents by those of every world.
    fn follow(&mut self, rng: &mut Rng, request: &Request, guide: Guide) -> Result<(), String> {
        let follower = Follower::new(request, guide);
        let by_any = Stand {
            follower: follower.clone(),
            worlds: None,
        };
        self.lead(rng, request, by_any)?;
        if request.fluents > WORLD_FLUENTS {
            self.not_enumerated += 1;
            return Ok(());
        }
        let carrier = &Carrier::new(request);
        let worlds = InWorlds::new(request, carrier);
        self.in_worlds += 1;
        self.worlds += worlds.count();
        let in_all = Stand {
            follower,
            worlds: Some(worlds),
        };
        self.lead(rng, request, in_all)
    }

    /// Leads through the plan, in the first world before the next.
    fn lead(&mut self, rng: &mut Rng, request: &Request, first: Stand) -> Result<(), String> {
        let mut stands = vec![first];
        while let Some(mut stand) = stands.pop() {
            let right = stand.readings(rng);
            self.expect_refused(rng, &mut stand, &right)?;
            match self.call(&mut stand.follower, &right)? {
                Told::Refused(answer) => return Err(format!("{answer} to readings {right:?}")),
                Told::Do(action) => {
                    let actions = stand.follower.actions;
                    self.most_actions = self.most_actions.max(actions);
                    if actions > ITEM_LIMIT {
                        return Err("too many actions".to_string());
                    }
                    stands.extend(stand.run(action)?);
                }
                Told::Done => {
                    stand.ended(request)?;
                    let again = self.call(&mut stand.follower, &any_readings(rng))?;
                    if again != Told::Done {
                        return Err(format!("{again:?} after done"));
                    }
                }
            }
        }
        Ok(())
    }

    fn call(&mut self, follower: &mut Follower, readings: &[u8]) -> Result<Told, String> {
        let (told, events) = follower.call(readings)?;
        self.calls.note(told.number(), events);
        Ok(told)
    }

    /// Calls with wrong numbers of readings, and with readings against what is known.
    fn expect_refused(
        &mut self,
        rng: &mut Rng,
        stand: &mut Stand,
        right: &[u8],
    ) -> Result<(), String> {
        for readings in wrong_numbers(rng, right) {
            let told = self.call(&mut stand.follower, &readings)?;
            expect_number(told, WRONG_NUMBER)?;
        }
        let asked = stand.follower.asked();
        for _ in 0..asked.len().min(2) {
            if let Some(readings) = against(rng, &stand.follower, &asked, right) {
                let told = self.call(&mut stand.follower, &readings)?;
                expect_number(told, AGAINST_KNOWN)?;
            }
        }
        Ok(())
    }
}

fn expect_number(told: Told, number: u8) -> Result<(), String> {
    match told {
        Told::Refused(answer) if answer == Answer::neither(number, 0) => Ok(()),
        _ => Err(format!("{told:?}, and not {number}")),
    }
}

impl<'a> Stand<'a> {
    /// The readings that are due: true ones, or any that are not refused.
    fn readings(&self, rng: &mut Rng) -> Vec<u8> {
        let course = &self.follower.course;
        let of = |fluent| {
            let value = match &self.worlds {
                Some(worlds) => worlds.value(fluent),
                None if course.knows(fluent) => !course.is_against(fluent, true),
                None => rng.chance(50),
            };
            reading(rng, value)
        };
        self.follower.asked().into_iter().map(of).collect()
    }

    /// After the action that was answered: it is the one that the plan in worlds comes to, and may be run in all of
    /// them. What the guide knows is so in all of them.
    fn run(mut self, action: u8) -> Result<Vec<Stand<'a>>, String> {
        let Some(mut worlds) = self.worlds.take() else {
            return Ok(vec![self]);
        };
        let mut known = self.follower.course.known();
        if let Some((fluent, _)) = known.find(|&(fluent, value)| !worlds.has(fluent, value)) {
            return Err(format!("fluent {fluent} is known, and not in worlds"));
        }
        drop(known);
        match worlds.next_action().map_err(in_worlds)? {
            Some(next) if next == action => {}
            next => return Err(format!("action {action}, in worlds {next:?}")),
        }
        let after = worlds.run(action).map_err(in_worlds)?;
        let with = |worlds| Stand {
            follower: self.follower.clone(),
            worlds: Some(worlds),
        };
        Ok(after.into_iter().map(with).collect())
    }

    /// At the plan's end all that is asked is known, and so in worlds.
    fn ended(&mut self, request: &Request) -> Result<(), String> {
        let course = &self.follower.course;
        let is_goal = |&goal: &u8| course.known().any(|it| it == (goal / 2, goal % 2 == 0));
        let is_known = |&fluent: &u8| course.knows(fluent);
        if !request.goals.iter().all(is_goal) || !request.whether.iter().all(is_known) {
            return Err("done, and what is asked is not known".to_string());
        }
        let Some(worlds) = &mut self.worlds else {
            return Ok(());
        };
        match worlds.next_action().map_err(in_worlds)? {
            None => worlds.ended(request).map_err(in_worlds),
            Some(action) => Err(format!("done, in worlds action {action}")),
        }
    }
}

fn in_worlds(failure: Failure) -> String {
    format!("in worlds {failure:?}")
}

impl Checked for Tally {
    fn found(&self) -> &Differences {
        &self.differences
    }

    fn never_met(&self) -> Vec<String> {
        let starts = self.starts.never(&STARTS, "at a start", &Start::ALL);
        let calls = self.calls.never(&CALLS, "at a call", &Event::ALL);
        starts.chain(calls).collect()
    }

    fn none_rare(&self) -> Result<(), String> {
        self.starts.none_rare(&[0, NOT_VERIFIED], LEAST_SHARE)?;
        self.calls.none_rare(&[0, WRONG_NUMBER], LEAST_SHARE)
    }

    fn report(&self) -> String {
        let numbers = [
            ("plans followed in all worlds", self.in_worlds),
            ("worlds of these", self.worlds),
            ("plans with too many fluents for that", self.not_enumerated),
            ("most actions of a plan followed", self.most_actions as u64),
        ];
        self.differences.report()
            + &self.starts.report("guides started", &[])
            + &self.calls.report("calls of guides", &[])
            + &titled(&numbers)
    }
}

//! Times of the call by cases, beside the walk call on the same request: of generated requests which both answer alike, and of the action that takes longest.

use std::hint::black_box;

use glintstring::{judge_by_cases_packed, judge_packed, Packed, MOST_OPEN, STATE_LENGTH};
use oracle::encode::encode_request;
use oracle::model::{Allowance, Effect, Item, Knowledge, Request};
use oracle::reader::{FLUENT_LIMIT, REQUEST_LIMIT};
use oracle::rng::Rng;
use oracle::Answer;

use crate::classes::{large, medium, small};
use crate::walks::side_by_side;

/// The stream of random numbers of the requests.
const REQUESTS: u64 = 160;
/// Generated requests of a row.
const COUNT: u64 = 100;
const BUDGET: u32 = 1_000;

/// The last fluent is true, the open ones stand before it, and all others are true. Literals from there on.
const LAST: u8 = FLUENT_LIMIT as u8 - 1;
const OPEN: u8 = LAST - MOST_OPEN as u8;
const NOT_LAST: u8 = 2 * LAST + 1;
/// Lines that an action can have of a kind, and literals that a body can have.
const LINES: usize = 255;
const BODY: u8 = 16;

/// What a row of the table is of, and how many requests.
struct Kind {
    name: &'static str,
    count: u64,
    request: fn(&mut Rng) -> Request,
}

const KINDS: [Kind; 7] = [
    Kind { name: "small", count: COUNT, request: small },
    Kind { name: "medium", count: COUNT, request: medium },
    Kind { name: "large", count: COUNT, request: large },
    Kind { name: "12 open fluents, one effect, one line known true", count: 1, request: least },
    Kind { name: "12 open fluents, 255 effects and lines, the last line known true", count: 1, request: allowed },
    Kind { name: "12 open fluents, 255 effects and lines, the last two true by cases", count: 1, request: longest },
    Kind { name: "12 open fluents, 255 lines of a sensing action, the last two true by cases", count: 1, request: sensing },
];

/// Action 0 is the plan, and has these lines.
fn one_action(effects: Vec<Effect>, allowances: Vec<Allowance>) -> Request {
    let facts = (0..OPEN).chain([LAST]).map(|fluent| 2 * fluent).collect();
    Request { fluents: FLUENT_LIMIT as u8, actions: 1, facts, effects, allowances, plan: vec![Item::act(0)], ..Request::default() }
}

fn allowance(body: Vec<u8>) -> Allowance {
    Allowance { action: 0, body }
}

/// A body of literals that are true, and behind them these.
fn ending(last: &[u8]) -> Vec<u8> {
    (0..BODY - last.len() as u8).map(|fluent| 2 * fluent).chain(last.iter().copied()).collect()
}

/// Fluent 0 would become false, which it is not.
fn effect(body: Vec<u8>) -> Effect {
    Effect { place: 0, action: 0, literal: 1, body }
}

/// As many effects as there can be. Each body is looked at to its end: what is last is false, and before it stands one of the open fluents.
fn effects() -> Vec<Effect> {
    (0..LINES).map(|index| effect(ending(&[2 * (OPEN + (index % MOST_OPEN) as u8), NOT_LAST]))).collect()
}

/// As many lines as there can be with these last ones. Each other is looked at to its end in the same way.
fn allowances(last: &[Vec<u8>]) -> Vec<Allowance> {
    let others = vec![allowance(ending(&[NOT_LAST])); LINES - last.len()];
    others.into_iter().chain(last.iter().map(|body| allowance(body.clone()))).collect()
}

/// One effect that has all open fluents in its body.
fn least(_: &mut Rng) -> Request {
    let all: Vec<u8> = (OPEN..LAST).map(|fluent| 2 * fluent).collect();
    one_action(vec![effect(all)], vec![allowance(Vec::new())])
}

fn allowed(_: &mut Rng) -> Request {
    one_action(effects(), allowances(&[Vec::new()]))
}

fn longest(_: &mut Rng) -> Request {
    one_action(effects(), allowances(&[vec![2 * OPEN], vec![2 * OPEN + 1]]))
}

/// It senses a fluent that is known. The first line that can't be true has all open fluents.
fn sensing(_: &mut Rng) -> Request {
    let mut lines = allowances(&[vec![2 * OPEN], vec![2 * OPEN + 1]]);
    lines[0].body = (OPEN..LAST).map(|fluent| 2 * fluent).chain([NOT_LAST]).collect();
    Request { knowledge: vec![Knowledge { place: 0, action: 0, fluent: LAST }], ..one_action(Vec::new(), lines) }
}

struct Timed {
    request: Vec<u8>,
    lent: [u8; STATE_LENGTH],
}

/// The first request that is no longer than one may be; and of the generated ones, that is walked alike by both calls, within the budget.
fn timed(rng: &mut Rng, kind: &Kind) -> Timed {
    loop {
        let request = encode_request(&(kind.request)(rng)).bytes;
        let mut timed = Timed { request, lent: [9; STATE_LENGTH] };
        let [by_cases, walked] = timed.answers();
        let alike = by_cases == walked && walked.number() <= 2;
        if timed.request.len() <= REQUEST_LIMIT && (kind.count == 1 || alike) {
            return timed;
        }
        assert!(kind.count > 1, "{}: {} bytes", kind.name, timed.request.len());
    }
}

impl Timed {
    fn by_cases(&mut self) {
        _ = black_box(judge_by_cases_packed(black_box(&self.request), &mut self.lent, BUDGET));
    }

    fn walk(&mut self) {
        _ = black_box(judge_packed(black_box(&self.request), &mut self.lent, BUDGET));
    }

    fn answers(&mut self) -> [Packed; 2] {
        [judge_by_cases_packed(&self.request, &mut self.lent, BUDGET), judge_packed(&self.request, &mut self.lent, BUDGET)]
    }

    /// Both calls answer as the independent program does; number and count by cases, and number of the walk call.
    fn agreed(&mut self) -> Result<[u32; 3], String> {
        let [by_cases, walked] = self.answers();
        let state = || [9; STATE_LENGTH];
        let others = [oracle::judge_by_cases(&self.request, &mut state(), BUDGET), oracle::judge(&self.request, &mut state(), BUDGET)];
        let same = |packed: Packed, other: Answer| {
            (packed.number(), packed.place() as u32, packed.count()) == (other.number, other.place, other.count)
        };
        match same(by_cases, others[0]) && same(walked, others[1]) {
            true => Ok([by_cases.number().into(), by_cases.count(), walked.number().into()]),
            false => Err(format!("by cases {by_cases:?}, walk call {walked:?}, independent {} and {}", others[0], others[1])),
        }
    }
}

/// The table, after a comparison of all answers.
pub fn time(seed: u64, rounds: u64) -> Result<String, String> {
    let mut out = String::from("| requests | bytes, mean | numbers by cases | numbers of the walk | count, mean | by cases, ns | walk call, ns | ratio | quartiles |\n");
    out += "|---|---|---|---|---|---|---|---|---|\n";
    for (row, kind) in KINDS.iter().enumerate() {
        let mut requests: Vec<Timed> = (0..kind.count).map(|index| timed(&mut Rng::new(seed, REQUESTS + row as u64, index), kind)).collect();
        let answers = requests.iter_mut().map(Timed::agreed).collect::<Result<Vec<[u32; 3]>, String>>()?;
        let ([by_cases, walk], [[low, middle, high], _]) = side_by_side(&mut requests, rounds, [Timed::by_cases, Timed::walk]);
        let bytes = requests.iter().map(|timed| timed.request.len()).sum::<usize>() / requests.len();
        let count = answers.iter().map(|answer| u64::from(answer[1])).sum::<u64>() / kind.count;
        let numbers = |of: usize| {
            let mut numbers: Vec<u32> = answers.iter().map(|answer| answer[of]).collect();
            numbers.sort_unstable();
            numbers.dedup();
            numbers.iter().map(u32::to_string).collect::<Vec<String>>().join(", ")
        };
        let (name, by, walked) = (kind.name, numbers(0), numbers(2));
        out += &format!("| {name} | {bytes} | {by} | {walked} | {count} | {by_cases:.0} | {walk:.0} | {middle:.2} | {low:.2} to {high:.2} |\n");
    }
    Ok(out.trim_end().to_string())
}

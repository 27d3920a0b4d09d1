//! Trials for a program that has a guide: a request with a budget and the readings of one call after another, as bytes,
//! and what is to be printed of them.
//!
//! A trial is the budget in four bytes, the length of the request in two and the request, the number of calls in two,
//! and for each call one byte with the number of its readings and the readings. Numbers have their high byte first.
//!
//! Printed is a line `start NUMBER INPUT PLACE COUNT`, and a line for each call: `do A`, with a space and a fluent for
//! each reading that the next call brings, or `done`, or `refused NUMBER INPUT PLACE COUNT`.

use super::call::{start, Guide, Told};
use super::calls::guide_call;
use super::cases;
use super::follower::{Event, Follower};
use crate::model::Request;
use crate::open;
use crate::reader::{FLUENT_LIMIT, ITEM_LIMIT};
use crate::rng::Rng;
use crate::table::{bit, Known, Mask, Table};
use crate::Answer;

/// Most calls of a trial, but for the few that lead through a long plan.
const CALLS: usize = 40;
const MANY_CALLS: usize = ITEM_LIMIT + 100;

/// A start, and calls one after another, each with its readings.
#[derive(Clone, Debug)]
pub struct Trial {
    pub request: Vec<u8>,
    pub budget: u32,
    pub calls: Vec<Vec<u8>>,
}

/// What is answered of a trial: the start, and each call with the fluents that are asked for after it.
#[derive(Clone, Debug)]
pub struct Answers {
    pub start: Answer,
    pub calls: Vec<(Told, Vec<u8>)>,
}

impl Trial {
    pub fn answers(&self) -> Answers {
        let (mut guide, answer) = start(&self.request, self.budget);
        let mut calls = Vec::with_capacity(self.calls.len());
        for readings in &self.calls {
            let told;
            (guide, told) = guide.next(readings);
            calls.push((told, guide.asks()));
        }
        Answers {
            start: answer,
            calls,
        }
    }

    /// What its calls show, by a guide that is followed; nothing where the start is refused.
    pub fn events(&self) -> Vec<Event> {
        let (guide, _) = start(&self.request, self.budget);
        let (Guide::Going(_), Ok(request)) = (&guide, open(&self.request)) else {
            return Vec::new();
        };
        let mut follower = Follower::new(&request, guide);
        let calls = self.calls.iter();
        let shown = calls.map(|readings| follower.call(readings).expect("two guides that agree").1);
        shown.flatten().collect()
    }

    pub fn bytes(&self) -> Vec<u8> {
        let short = |length: usize| u16::try_from(length).expect("a short length").to_be_bytes();
        let mut bytes = self.budget.to_be_bytes().to_vec();
        bytes.extend(short(self.request.len()));
        bytes.extend(&self.request);
        bytes.extend(short(self.calls.len()));
        for readings in &self.calls {
            bytes.push(u8::try_from(readings.len()).expect("few readings"));
            bytes.extend(readings);
        }
        bytes
    }
}

impl Answers {
    pub fn printed(&self) -> String {
        let mut text = format!("start {}\n", self.start);
        for (told, asked) in &self.calls {
            match told {
                Told::Do(action) => {
                    text += &format!("do {action}");
                    for fluent in asked {
                        text += &format!(" {fluent}");
                    }
                    text.push('\n');
                }
                Told::Done => text += "done\n",
                Told::Refused(answer) => text += &format!("refused {answer}\n"),
            }
        }
        text
    }
}

/// The format's rows, and so many trials.
pub fn trials(seed: u64, count: u64) -> impl Iterator<Item = Trial> {
    let rows = cases::trials().into_iter();
    rows.chain(drawn(seed, count))
}

fn drawn(seed: u64, count: u64) -> impl Iterator<Item = Trial> {
    (0..count).map(move |number| {
        let rng = &mut Rng::new(seed, 41, number);
        let call = guide_call(rng);
        trial_of(rng, call.request, call.budget)
    })
}

/// A trial with a request and a budget. It follows the plan by the readings of a world, or by others.
pub fn trial_of(rng: &mut Rng, request: Vec<u8>, budget: u32) -> Trial {
    let (guide, _) = start(&request, budget);
    let calls = match (&guide, open(&request)) {
        (Guide::Going(_), Ok(read)) => led(rng, &read, guide),
        _ => (0..rng.range(1, 3)).map(|_| any_readings(rng)).collect(),
    };
    Trial {
        request,
        budget,
        calls,
    }
}

/// The readings of the calls that lead through a plan, with refused ones before them, and calls after the end.
fn led(rng: &mut Rng, request: &Request, guide: Guide) -> Vec<Vec<u8>> {
    let table = Table::new(request);
    let mut truth = any_world(rng, request);
    let mut follower = Follower::new(request, guide);
    let mut calls = Vec::new();
    let most = match request.plan.len() > ITEM_LIMIT / 2 && rng.chance(40) {
        true => MANY_CALLS,
        false => CALLS,
    };
    let [wrong, lies] = [*rng.pick(&[0, 5, 30]), *rng.pick(&[0, 0, 20, 50])];
    while calls.len() < most && !follower.ended {
        let asked = follower.asked();
        let right = readings(rng, &follower, &asked, truth, lies);
        let mut next = Vec::new();
        if rng.chance(wrong) {
            next.push(wrong_number(rng, &right));
        }
        if rng.chance(2 * wrong) {
            next.extend(against(rng, &follower, &asked, &right));
        }
        next.push(right);
        for readings in next {
            follower.call(&readings).expect("two guides that agree");
            calls.push(readings);
        }
        if let Some(action) = follower.last {
            truth = table.step(action, truth);
        }
    }
    for _ in 0..rng.below(3) {
        calls.push(any_readings(rng));
    }
    calls
}

/// A world that has the initial facts, with a value for each fluent.
fn any_world(rng: &mut Rng, request: &Request) -> Known {
    let facts = Known::of(&request.facts);
    let drawn = Mask::from(rng.bits()) << 64 | Mask::from(rng.bits());
    let yes = (drawn | facts.yes) & !facts.no;
    Known { yes, no: !yes }
}

/// Readings that are never refused: of a known fluent what is known, and of others what is so in the world, but for so
/// many lies in a hundred.
pub(crate) fn readings(
    rng: &mut Rng,
    follower: &Follower,
    asked: &[u8],
    truth: Known,
    lies: u64,
) -> Vec<u8> {
    let of = |&fluent: &u8| {
        let lie = rng.chance(lies);
        let value = match follower.course.knows(fluent) {
            true => !follower.course.is_against(fluent, true),
            false => (truth.yes & bit(fluent) != 0) != lie,
        };
        reading(rng, value)
    };
    asked.iter().map(of).collect()
}

/// A byte that says so.
pub(crate) fn reading(rng: &mut Rng, value: bool) -> u8 {
    match (value, rng.chance(60)) {
        (false, _) => 0,
        (true, true) => 1,
        (true, false) => *rng.pick(&[2, 3, 128, 254, 255, rng.clone().byte(1, 255)]),
    }
}

/// One reading too few or too many, none or far more.
pub(crate) fn wrong_number(rng: &mut Rng, right: &[u8]) -> Vec<u8> {
    let all = wrong_numbers(rng, right);
    rng.pick(&all).clone()
}

/// Of each kind one.
pub(crate) fn wrong_numbers(rng: &mut Rng, right: &[u8]) -> Vec<Vec<u8>> {
    let mut longer = right.to_vec();
    longer.push(rng.byte(0, 1));
    let far = rng.range(FLUENT_LIMIT + 1, 255);
    let far: Vec<u8> = (0..far).map(|_| rng.byte(0, 2)).collect();
    let mut all = vec![longer, far];
    if let Some((_, shorter)) = right.split_last() {
        // What is there may be against what is known.
        let other = |byte: &u8| byte ^ u8::from(rng.chance(30));
        all.push(shorter.iter().map(other).collect());
        all.push(Vec::new());
    }
    all
}

/// Readings that say of some known fluent what is not known, and of unknown ones anything; none where no fluent is known.
pub(crate) fn against(
    rng: &mut Rng,
    follower: &Follower,
    asked: &[u8],
    right: &[u8],
) -> Option<Vec<u8>> {
    let known = |&index: &usize| follower.course.knows(asked[index]);
    let known: Vec<usize> = (0..asked.len()).filter(known).collect();
    if known.is_empty() {
        return None;
    }
    let mut readings = right.to_vec();
    for (index, byte) in readings.iter_mut().enumerate() {
        if !known.contains(&index) || rng.chance(20) {
            let value = rng.chance(50);
            *byte = reading(rng, value);
        }
    }
    let index = *rng.pick(&known);
    readings[index] = u8::from(right[index] == 0);
    Some(readings)
}

/// Any bytes, which are not looked at.
pub(crate) fn any_readings(rng: &mut Rng) -> Vec<u8> {
    let length = *rng.pick(&[0, 0, 1, 2, 7, FLUENT_LIMIT, 255]);
    (0..length).map(|_| rng.byte(0, 255)).collect()
}

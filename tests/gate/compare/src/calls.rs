//! One call made both ways.

use std::time::{Duration, Instant};

use glintstring::Packed;
use oracle::calls::JudgeCall;
use oracle::rng::Rng;
use oracle::text::comma_separated;

use crate::fence::Fenced;

/// What a walk call takes.
#[derive(Clone, Debug)]
pub struct Call {
    pub request: Vec<u8>,
    pub lent: Vec<u8>,
    pub budget: u32,
}

impl From<JudgeCall> for Call {
    fn from(drawn: JudgeCall) -> Call {
        Call { request: drawn.request, lent: drawn.lent, budget: drawn.budget }
    }
}

/// What it leaves: number, input, place and count, the lent bytes, and the line where it is asked for.
#[derive(Clone, Debug, PartialEq, Eq)]
pub struct Left {
    pub answer: [u64; 4],
    pub lent: Vec<u8>,
    pub line: Option<u32>,
}

impl std::fmt::Display for Call {
    fn fmt(&self, out: &mut std::fmt::Formatter<'_>) -> std::fmt::Result {
        let (request, lent) = (comma_separated(&self.request), comma_separated(&self.lent));
        write!(out, "budget {}, lent {lent}, request {request}", self.budget)
    }
}

/// An answer as four numbers.
pub fn numbers(packed: Packed) -> [u64; 4] {
    [packed.number().into(), packed.input().into(), packed.place() as u64, packed.count().into()]
}

/// The independent program's answer in the same form.
pub fn told(answer: oracle::Answer) -> [u64; 4] {
    [answer.number.into(), answer.input.into(), answer.place.into(), answer.count.into()]
}

/// Four numbers in the independent program's form.
pub fn answer([number, input, place, count]: [u64; 4]) -> oracle::Answer {
    oracle::Answer { number: number as u8, input: input as u8, place: place as u32, count: count as u32 }
}

/// Both exported forms of the call, between fences; in words what they changed that they may not, in what the names of an answer differ from its
/// numbers, or how the second form, which has the line, differs from the first in anything else.
pub fn exported(rng: &mut Rng, call: &Call) -> Result<Left, String> {
    let (first, _) = timed(rng, call)?;
    let mut request = Fenced::new(rng, &call.request);
    let mut state = Fenced::new(rng, &call.lent);
    let (request_before, state_before) = (request.clone(), state.clone());
    // What stands around the lent number, and what it holds before.
    let mut numbers_lent: [u32; 5] = std::array::from_fn(|_| rng.bits() as u32);
    let before = numbers_lent;
    let packed = glintstring::judge_line_packed(request.lent(), state.lent(), call.budget, &mut numbers_lent[2]);
    let line = numbers_lent[2];
    let lent = state.lent().to_vec();
    numbers_lent[2] = before[2];
    if request != request_before || state != state_before.with(&lent) || numbers_lent != before {
        return Err("with the line: the request was changed, or what stands around it, the lent state or the lent number".to_string());
    }
    if (numbers(packed), &lent) != (first.answer, &first.lent) {
        let lent = comma_separated(&lent);
        return Err(format!("with the line: the answer is {:?} and the lent bytes are {lent}, and without {first:?}", numbers(packed)));
    }
    let named = std::panic::catch_unwind(|| glintstring::Judged::unpack(packed, &lent, line)).map_err(|_| format!("line {line} of {packed:?} is none"))?;
    if named.line.unwrap_or(0) != line as usize {
        return Err(format!("line {line} is named {:?}", named.line));
    }
    Ok(Left { line: Some(line), ..first })
}

/// The form without the line, and how long it took.
pub fn timed(rng: &mut Rng, call: &Call) -> Result<(Left, Duration), String> {
    timed_by(rng, call, &glintstring::judge_packed)
}

/// What answers walk calls in that form: the exported call, or one that stands in for it.
pub type Judge = dyn Fn(&[u8], &mut [u8], u32) -> Packed;

/// The same of any such call.
pub fn timed_by(rng: &mut Rng, call: &Call, judge: &Judge) -> Result<(Left, Duration), String> {
    timed_and_named(rng, call, judge, glintstring::Answer::unpack)
}

/// A call between fences, whose answers have their names by `unpack`: what it leaves, and how long it took; in words what it changed that it may
/// not, or in what the names of an answer differ from its numbers.
pub fn timed_and_named(rng: &mut Rng, call: &Call, judge: &Judge, unpack: fn(Packed, &[u8]) -> glintstring::Answer) -> Result<(Left, Duration), String> {
    let (packed, lent, took) = fenced_by(rng, call, judge)?;
    let answer = numbers(packed);
    let named = std::panic::catch_unwind(|| unpack(packed, &lent)).map_err(|_| format!("{answer:?} is no answer"))?;
    let told = [named.number().into(), named.input().into(), named.place() as u64, named.count().into()];
    let wrote = named.state().is_none_or(|state| state.bytes() == lent[..]) && named.values().is_none_or(|values| values.bytes() == lent[..]);
    if told != answer || !wrote {
        return Err(format!("answer {answer:?} is named {named}"));
    }
    Ok((Left { answer, lent, line: None }, took))
}

/// Its answer, the lent bytes afterwards and how long it took.
pub fn fenced_by(rng: &mut Rng, call: &Call, judge: impl Fn(&[u8], &mut [u8], u32) -> Packed) -> Result<(Packed, Vec<u8>, Duration), String> {
    let mut request = Fenced::new(rng, &call.request);
    let mut state = Fenced::new(rng, &call.lent);
    let (request_before, state_before) = (request.clone(), state.clone());
    let began = Instant::now();
    let packed = judge(request.lent(), state.lent(), call.budget);
    let took = began.elapsed();
    let lent = state.lent().to_vec();
    if request != request_before {
        return Err("the request, or what stands around it, was changed".to_string());
    }
    if state != state_before.with(&lent) {
        return Err("what stands around the lent state was changed".to_string());
    }
    Ok((packed, lent, took))
}

/// The independent program's.
pub fn independent(call: &Call) -> Left {
    let mut lent = call.lent.clone();
    let (answer, line) = oracle::judge_line(&call.request, &mut lent, call.budget);
    Left { answer: told(answer), lent, line: Some(line) }
}

/// What both leave, or how they differ.
pub fn agreed(rng: &mut Rng, call: &Call) -> Result<Left, String> {
    let one = exported(rng, call)?;
    let other = independent(call);
    expect(&one, &other, "the independent program")?;
    Ok(one)
}

/// Each byte counts, and the line where both have it.
pub fn expect(one: &Left, other: &Left, whose: &str) -> Result<(), String> {
    if one.answer != other.answer {
        return Err(format!("number, input, place, count are {:?}, by {whose} {:?}", one.answer, other.answer));
    }
    if one.lent != other.lent {
        let (one, other) = (comma_separated(&one.lent), comma_separated(&other.lent));
        return Err(format!("the lent bytes are {one}, by {whose} {other}"));
    }
    match (one.line, other.line) {
        (Some(one), Some(other)) if one != other => Err(format!("the line is {one}, by {whose} {other}")),
        _ => Ok(()),
    }
}

//! Index calls and indexed calls made both ways, each with the walk call beside it, and many of them with how often each number occurred.

use std::fmt;
use std::time::Duration;

use oracle::calls::{JudgeCall, Outlook};
use oracle::indexes::calls::{unindexed_call, with_index, LONGEST, WRONG};
use oracle::indexes::run::Tally;
use oracle::rng::Rng;
use oracle::tally::Checked;
use oracle::text::comma_separated;

use crate::calls::{self, answer, expect, fenced_by, numbers, told, Call, Left};
use crate::cases;
use crate::fence::Fenced;
use crate::generated::{change, cross, crowded_request, varied, MOST};
use crate::many::{all_met, each_agreed, print_indented, some_longest, ENOUGH};

/// Streams of random numbers: of the calls, and of what stands around what they are given.
const CALLS: u64 = 35;
const FENCES: u64 = 36;
const DIFFERS: u64 = 45;
const ROOM_SHORT: u64 = 39;

/// What an indexed call takes: what a walk call does, and an index.
#[derive(Clone, Debug)]
pub struct Indexed {
    pub call: Call,
    pub index: Vec<u8>,
}

impl fmt::Display for Indexed {
    fn fmt(&self, out: &mut fmt::Formatter<'_>) -> fmt::Result {
        write!(out, "{}, index {}", self.call, comma_separated(&self.index))
    }
}

/// What both calls take: the room of the index call besides.
#[derive(Clone, Debug)]
pub struct Both {
    pub indexed: Indexed,
    pub room: Vec<u8>,
}

impl fmt::Display for Both {
    fn fmt(&self, out: &mut fmt::Formatter<'_>) -> fmt::Result {
        write!(out, "{}, room {}", self.indexed, comma_separated(&self.room))
    }
}

impl Both {
    /// What the index call takes: a request, and a room as its lent bytes.
    fn building(&self) -> Call {
        Call { request: self.indexed.call.request.clone(), lent: self.room.clone(), budget: 0 }
    }
}

/// The exported index call, between fences, and how long it took; the room is the lent bytes.
pub fn built(rng: &mut Rng, call: &Call) -> Result<(Left, Duration), String> {
    let (packed, lent, took) = fenced_by(rng, call, |request, room, _| cases::index(request, room))?;
    Ok((Left { answer: numbers(packed), lent, line: None }, took))
}

/// The independent program's.
pub fn independently_built(call: &Call) -> Left {
    let mut lent = call.lent.clone();
    let answer = oracle::index(&call.request, &mut lent);
    Left { answer: told(answer), lent, line: None }
}

/// The exported indexed call, between fences, and how long it took.
pub fn timed(rng: &mut Rng, call: &Indexed) -> Result<(Left, Duration), String> {
    let mut index = Fenced::new(rng, &call.index);
    let before = index.clone();
    let given: &[u8] = index.lent();
    let (packed, lent, took) = fenced_by(rng, &call.call, |request, state, budget| cases::judge_indexed(request, given, state, budget))?;
    match index == before {
        true => Ok((Left { answer: numbers(packed), lent, line: None }, took)),
        false => Err("the index, or what stands around it, was changed".to_string()),
    }
}

/// The independent program's.
pub fn independent(call: &Indexed) -> Left {
    let mut lent = call.call.lent.clone();
    let (answer, line) = oracle::judge_indexed_line(&call.call.request, &call.index, &mut lent, call.call.budget);
    Left { answer: told(answer), lent, line: Some(line) }
}

/// What both programs leave of an index call, or how they differ.
pub fn built_agreed(rng: &mut Rng, call: &Call) -> Result<Left, String> {
    let (one, _) = built(rng, call)?;
    expect(&one, &independently_built(call), "the independent program")?;
    Ok(one)
}

/// What both programs leave of an indexed call, or how they differ. The line is the independent program's.
pub fn indexed_agreed(rng: &mut Rng, call: &Indexed) -> Result<Left, String> {
    let (one, _) = timed(rng, call)?;
    let other = independent(call);
    expect(&one, &other, "the independent program")?;
    Ok(Left { line: other.line, ..one })
}

/// What both calls leave. Five calls are made, each both ways: the index call, the indexed call, the walk call on the same bytes, and the index call with
/// room enough and the indexed call with what that wrote.
pub fn agreed(rng: &mut Rng, call: &Both) -> Result<[Left; 2], String> {
    let built = built_agreed(rng, &call.building()).map_err(|why| format!("the index call: {why}"))?;
    let one = indexed_agreed(rng, &call.indexed)?;
    let walked = calls::agreed(rng, &call.indexed.call).map_err(|why| format!("the walk call: {why}"))?;
    beside_walk(&built, &one, &walked)?;
    by_what_was_built(rng, &call.indexed.call, &walked)?;
    Ok([built, one])
}

/// Both refuse a request as the walk call does, but for 9, which is not the index call's, and all else is the walk call's but for 45 (FORMAT 23.7, 23.8,
/// 23.26).
fn beside_walk(built: &Left, one: &Left, walked: &Left) -> Result<(), String> {
    let number = walked.answer[0];
    let right = match built.answer[0] {
        0 | ROOM_SHORT => number <= 3 || number == 9,
        _ => built.answer == walked.answer || number == 9,
    };
    let same = match one.answer[0] {
        DIFFERS => number <= 3,
        _ => one == walked,
    };
    match right && same {
        true => Ok(()),
        false => Err(format!(
            "number, input, place, count are {:?} and of the index {:?}, by the walk call on these bytes {:?}",
            one.answer, built.answer, walked.answer
        )),
    }
}

/// The indexed call with what the index call writes for the request leaves what the walk call leaves (FORMAT 23.24).
fn by_what_was_built(rng: &mut Rng, call: &Call, walked: &Left) -> Result<(), String> {
    let room = Call { request: call.request.clone(), lent: vec![9; LONGEST], budget: 0 };
    let built = built_agreed(rng, &room).map_err(|why| format!("the index call, with room enough: {why}"))?;
    let index = match built.answer {
        [0, _, _, count] => built.lent[..count as usize].to_vec(),
        [ROOM_SHORT, ..] => return Err(format!("a room of {LONGEST} bytes is too short")),
        _ => Vec::new(),
    };
    let left = indexed_agreed(rng, &Indexed { call: call.clone(), index })?;
    expect(&left, walked, "the walk call, with the index that was built")
}

/// Makes so many calls of each from a seed; in words how often each number occurred, or the first difference.
pub fn compare(seed: u64, count: u64) -> Result<String, String> {
    let mut tally = Tally::default();
    let (mut longest, mut longest_index) = (0, 0);
    each_agreed((seed, count), FENCES, call, agreed, |call, [built, left]| {
        let Call { request, budget, .. } = &call.indexed.call;
        tally.note_built(request, call.room.len(), answer(built.answer));
        tally.note(request, &call.indexed.index, *budget, (answer(left.answer), left.line.unwrap_or(0)));
        longest = longest.max(request.len());
        longest_index = longest_index.max(call.indexed.index.len());
    })?;
    print_indented(&tally.report());
    all_met((seed, count), ENOUGH, "calls with an index", &tally.never_met())?;
    Ok(format!(
        "{count} index calls and indexed calls of seed {seed} agree, and so do the walk calls beside them; the longest request has {longest} bytes, and the \
         longest index {longest_index}"
    ))
}

/// The calls with this number from a seed.
pub fn call(seed: u64, index: u64) -> Both {
    any_call(&mut Rng::new(seed, CALLS, index))
}

/// Calls of the independent program's own generators, which make about three of ten requests and somewhat more of the indexes wrong in some way, and
/// varied; a few requests are as long as one may be, or longer, and a few indexes are made wrong once more.
pub fn any_call(rng: &mut Rng) -> Both {
    let drawn = |rng: &mut Rng| unindexed_call(rng).into();
    let call = varied(rng, drawn, crowded_request);
    let call = some_longest(rng, call);
    let budget = call.budget.min(MOST);
    let drawn = with_index(rng, JudgeCall { request: call.request, lent: call.lent, budget, outlook: Outlook::Open }, WRONG);
    let mut index = drawn.index;
    match rng.below(50) {
        0 => change(rng, &mut index),
        1 => {
            let other = with_index(rng, drawn.call.clone(), WRONG).index;
            cross(rng, &mut index, &other);
        }
        _ => {}
    }
    Both { indexed: Indexed { call: drawn.call.into(), index }, room: drawn.room }
}

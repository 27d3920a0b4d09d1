//! Calls by cases made both ways, each with the walk call beside it, and many of them with how often each number occurred.

use std::time::Duration;

use oracle::cases::calls::{any_cases_call, cases_call};
use oracle::cases::run::Tally;
use oracle::rng::Rng;
use oracle::tally::Checked;

use crate::calls::{self, expect, fenced_by, numbers, told, Call, Left};
use crate::cases::judge_by_cases;
use crate::crowded::crowded;
use crate::generated::varied;
use crate::many::{all_met, longest_agreed, print_indented, some_longest, ENOUGH};

/// Streams of random numbers: of the calls, and of what stands around request and lent state.
const CALLS: u64 = 27;
const FENCES: u64 = 28;
/// The largest budget for a request whose walk nobody has counted before: each count may stand for 4,096 fillings.
const MOST: u32 = 1_000;
const TOO_MANY: u64 = 44;

/// The exported call by cases, between fences, and how long it took.
pub fn timed(rng: &mut Rng, call: &Call) -> Result<(Left, Duration), String> {
    let (packed, lent, took) = fenced_by(rng, call, judge_by_cases)?;
    Ok((Left { answer: numbers(packed), lent, line: None }, took))
}

/// The independent program's.
pub fn independent(call: &Call) -> Left {
    let mut lent = call.lent.clone();
    let answer = oracle::judge_by_cases(&call.request, &mut lent, call.budget);
    Left { answer: told(answer), lent, line: None }
}

/// What both leave, or how they differ. Two calls are made, each both ways: the call by cases, and the walk call on the same bytes.
pub fn agreed(rng: &mut Rng, call: &Call) -> Result<Left, String> {
    let (one, _) = timed(rng, call)?;
    expect(&one, &independent(call), "the independent program")?;
    let (walked, _) = calls::timed(rng, call)?;
    expect(&walked, &calls::independent(call), "the independent program").map_err(|why| format!("the walk call: {why}"))?;
    beside_walk(&one, &walked)?;
    Ok(one)
}

/// Where the walk call refuses, the call by cases does the same; where it gives 0, the call by cases gives 0 with no larger count, or 44 (FORMAT
/// 22.14, 22.21).
fn beside_walk(one: &Left, walked: &Left) -> Result<(), String> {
    let right = match (walked.answer[0], one.answer[0]) {
        (0, 0) => one.answer[3] <= walked.answer[3],
        (0..=3, TOO_MANY) | (1..=3, 0..=3) => true,
        (0..=3, _) => false,
        _ => one == walked,
    };
    match right {
        true => Ok(()),
        false => Err(format!("number, input, place, count are {:?}, by the walk call on these bytes {:?}", one.answer, walked.answer)),
    }
}

/// Makes so many calls from a seed; in words how often each number occurred, or the first difference.
pub fn compare(seed: u64, count: u64) -> Result<String, String> {
    let mut tally = Tally::default();
    let longest = longest_agreed((seed, count), FENCES, call, agreed, |request, budget, answer| tally.note(request, budget, answer))?;
    print_indented(&tally.report());
    all_met((seed, count), ENOUGH, "calls by cases", &tally.never_met())?;
    let only = tally.only_by_cases();
    Ok(format!(
        "{count} calls by cases of seed {seed} agree, {only} of them verified by cases only, and so do the walk calls beside them; the longest request has \
         {longest} bytes"
    ))
}

/// The call with this number from a seed.
pub fn call(seed: u64, index: u64) -> Call {
    any_call(&mut Rng::new(seed, CALLS, index))
}

/// A call of the independent program's own generators, which make about one of five requests wrong in some way, and varied; a few requests are as
/// long as one may be, or longer.
pub fn any_call(rng: &mut Rng) -> Call {
    let drawn = |rng: &mut Rng| cases_call(rng).into();
    let call = varied(rng, drawn, |rng| {
        let draft = crowded(rng);
        any_cases_call(rng, &draft).request
    });
    let mut call = some_longest(rng, call);
    call.budget = call.budget.min(MOST);
    call
}

//! Guarded calls made both ways, each with the walk call beside it, and many of them with how often each number occurred.

use std::time::Duration;

use oracle::guards::calls::{any_guarded_call, guarded, guarded_call};
use oracle::guards::run::Tally;
use oracle::reader::REQUEST_LIMIT;
use oracle::rng::Rng;
use oracle::tally::Checked;

use crate::calls::{self, expect, timed_and_named, told, Call, Left};
use crate::crowded::crowded;
use crate::generated::{varied, MOST};
use crate::many::{all_met, longest_agreed, print_indented, some_longest, ENOUGH};

/// Streams of random numbers: of the calls, and of what stands around request and lent state.
const CALLS: u64 = 22;
const FENCES: u64 = 23;

/// The exported guarded call, between fences, and how long it took.
pub fn timed(rng: &mut Rng, call: &Call) -> Result<(Left, Duration), String> {
    timed_and_named(rng, call, &glintstring::judge_guarded_packed, glintstring::Answer::unpack_guarded)
}

/// The independent program's.
pub fn independent(call: &Call) -> Left {
    let mut lent = call.lent.clone();
    let answer = oracle::judge_guarded(&call.request, &mut lent, call.budget);
    Left { answer: told(answer), lent, line: None }
}

/// What both leave, or how they differ. Four calls are made, each both ways: the guarded one, the walk call on the same bytes, and both without
/// guards.
pub fn agreed(rng: &mut Rng, call: &Call) -> Result<Left, String> {
    let one = guarded_agreed(rng, call)?;
    let plain = walk_agreed(rng, call).map_err(|why| format!("the walk call: {why}"))?;
    beside_walk(&one, &plain, call.request.len())?;
    without_guards(rng, call, &plain)?;
    Ok(one)
}

fn guarded_agreed(rng: &mut Rng, call: &Call) -> Result<Left, String> {
    let (one, _) = timed(rng, call)?;
    expect(&one, &independent(call), "the independent program")?;
    Ok(one)
}

fn walk_agreed(rng: &mut Rng, call: &Call) -> Result<Left, String> {
    let (one, _) = calls::timed(rng, call)?;
    expect(&one, &calls::independent(call), "the independent program")?;
    Ok(one)
}

/// The walk call gives 20 at the ninth section's count, unless a fault stands before that, which the guarded call gives too; the guarded call gives
/// 11 at the length where the walk call finds eight sections and no more (FORMAT 21.3).
fn beside_walk(one: &Left, plain: &Left, length: usize) -> Result<(), String> {
    let [number, _, place, _] = one.answer;
    let ninth = plain.answer[2];
    let right = match plain.answer[0] {
        20 => match number {
            0 | 3 | 16..=18 => true,
            1 | 2 => place < ninth,
            11..=15 => place >= ninth,
            20 | 43 => place > ninth,
            _ => false,
        },
        9..=15 | 19 | 21 => one.answer == plain.answer,
        _ => (number, place) == (11, length as u64),
    };
    match right {
        true => Ok(()),
        false => Err(format!("number, input, place, count are {:?}, by the walk call on these bytes {:?}", one.answer, plain.answer)),
    }
}

/// The walk call on the eight sections, or on all bytes where it does not find them, and the guarded call on these and a byte 0: what both leave
/// is the same, unless the walk call gives 10, 11 or 20 or the second are too long (FORMAT 21.17).
fn without_guards(rng: &mut Rng, call: &Call, plain: &Left) -> Result<(), String> {
    let eight = if plain.answer[0] == 20 { plain.answer[2] as usize } else { call.request.len() };
    let mut call = Call { request: call.request[..eight].to_vec(), lent: call.lent.clone(), budget: call.budget.min(MOST) };
    let walked = walk_agreed(rng, &call).map_err(|why| format!("the walk call on eight sections: {why}"))?;
    call.request.push(0);
    let left = guarded_agreed(rng, &call).map_err(|why| format!("no guards: {why}"))?;
    match matches!(walked.answer[0], 10 | 11 | 20) || call.request.len() > REQUEST_LIMIT {
        true => Ok(()),
        false => expect(&left, &walked, "the walk call without guards"),
    }
}

/// Makes so many calls from a seed; in words how often each number occurred, or the first difference.
pub fn compare(seed: u64, count: u64) -> Result<String, String> {
    let mut tally = Tally::default();
    let longest = longest_agreed((seed, count), FENCES, call, agreed, |request, budget, answer| tally.note(request, budget, answer))?;
    print_indented(&tally.report());
    all_met((seed, count), ENOUGH, "guarded calls", &tally.never_met())?;
    Ok(format!("{count} guarded calls of seed {seed} agree, and so do the walk calls beside them; the longest request has {longest} bytes"))
}

/// The call with this number from a seed.
pub fn call(seed: u64, index: u64) -> Call {
    any_call(&mut Rng::new(seed, CALLS, index))
}

/// A call of the independent program's own generators, which make about three of ten requests wrong in some way, and varied; a few requests are as
/// long as one may be, or longer.
pub fn any_call(rng: &mut Rng) -> Call {
    let drawn = |rng: &mut Rng| guarded_call(rng).into();
    let call = varied(rng, drawn, |rng| {
        let request = crowded(rng);
        let draft = guarded(rng, request);
        any_guarded_call(rng, &draft).request
    });
    some_longest(rng, call)
}

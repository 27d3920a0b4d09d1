//! Derive calls made both ways, each with the walk call beside it and with what is written put to both derivation calls, and many of them with how often each
//! number occurred.

use std::time::Duration;

use oracle::calls::{JudgeCall, Outlook};
use oracle::derives::calls::{roomless_call, with_room};
use oracle::derives::run::{closing, Tally};
use oracle::reader::DERIVATION_LIMIT;
use oracle::rng::Rng;
use oracle::tally::Checked;

use crate::calls::{self, answer, expect, fenced_by, numbers, told, Call, Left};
use crate::cases;
use crate::checks::{self, Check};
use crate::generated::{crowded_request, varied, MOST};
use crate::many::{all_met, each_agreed, print_indented, some_longest, ENOUGH};

/// Streams of random numbers: of the calls, and of what stands around what they are given.
const CALLS: u64 = 40;
const FENCES: u64 = 41;
const WHETHER_ASKED: u64 = 30;
const ROOM_SHORT: u64 = 39;
const ACCEPTED: [u64; 4] = [0, 0, 0, 0];

/// The exported derive call, between fences, and how long it took; the room is the lent bytes.
pub fn timed(rng: &mut Rng, call: &Call) -> Result<(Left, Duration), String> {
    let (packed, lent, took) = fenced_by(rng, call, cases::derive)?;
    Ok((Left { answer: numbers(packed), lent, line: None }, took))
}

/// The independent program's.
pub fn independent(call: &Call) -> Left {
    let mut lent = call.lent.clone();
    let answer = oracle::derive(&call.request, &mut lent, call.budget);
    Left { answer: told(answer), lent, line: None }
}

/// What both programs leave of a derive call, or how they differ.
pub fn derived_agreed(rng: &mut Rng, call: &Call) -> Result<Left, String> {
    let (one, _) = timed(rng, call)?;
    expect(&one, &independent(call), "the independent program")?;
    Ok(one)
}

/// What both leave. Further calls are made both ways: the walk call on the same bytes; and where there is a derivation, whatever the room, the derive call with
/// room enough, and both derivation calls with what that wrote.
pub fn agreed(rng: &mut Rng, call: &Call) -> Result<Left, String> {
    let one = derived_agreed(rng, call)?;
    let walked = calls::agreed(rng, &walk_of(call)).map_err(|why| format!("the walk call: {why}"))?;
    beside_walk(&one, &walked)?;
    if let [0 | ROOM_SHORT, ..] = one.answer {
        let enough = Call { lent: vec![9; DERIVATION_LIMIT], ..call.clone() };
        let written = derived_agreed(rng, &enough).map_err(|why| format!("the derive call, with room enough: {why}"))?;
        accepted(rng, call, &one, &written)?;
    }
    Ok(one)
}

/// The walk call on the same request with the same budget.
pub fn walk_of(call: &Call) -> Call {
    Call { lent: vec![9; glintstring::STATE_LENGTH], ..call.clone() }
}

/// It refuses as the walk call does; 30 is given where the walk call walks; 1, 2 and 3 are the walk call's; and each other answer is given where the walk call
/// gives 0 (FORMAT 24.13 to 24.15).
fn beside_walk(one: &Left, walked: &Left) -> Result<(), String> {
    let right = match one.answer[0] {
        1..=3 | 10..=21 => one.answer == walked.answer,
        WHETHER_ASKED => walked.answer[0] <= 3,
        _ => walked.answer[0] == 0,
    };
    match right {
        true => Ok(()),
        false => Err(format!("number, input, place, count are {:?}, by the walk call on these bytes {:?}", one.answer, walked.answer)),
    }
}

/// What is written with room enough starts the room where that is long enough, and both derivation calls accept it, the whether call in the closing layout,
/// where it is three bytes longer (FORMAT 24.26, 17.42).
fn accepted(rng: &mut Rng, call: &Call, one: &Left, written: &Left) -> Result<(), String> {
    let [0, _, _, count] = written.answer else { return expect(one, &Left { lent: call.lent.clone(), ..written.clone() }, "the call with room enough") };
    let derivation = &written.lent[..count as usize];
    let fits = call.lent.len() >= derivation.len();
    if fits != (one.answer[0] == 0) || fits && !one.lent.starts_with(derivation) {
        return Err(format!("number, input, place, count are {:?} in a room of {}, and {:?} in room enough", one.answer, call.lent.len(), written.answer));
    }
    let plain = Check::plain(call.request.clone(), derivation.to_vec());
    let request = oracle::open(&call.request).map_err(|_| "a derivation of a request that is refused".to_string())?;
    let closing = closing(&request, derivation).ok_or("a derivation that can't be read")?;
    let mut checks = vec![("derivation", plain)];
    if closing.len() <= DERIVATION_LIMIT {
        checks.push(("whether", Check::closing(call.request.clone(), closing)));
    }
    for (name, check) in checks {
        match checks::agreed(rng, &check).map_err(|why| format!("the {name} call: {why}"))? {
            ACCEPTED => {}
            other => return Err(format!("the {name} call on what was written: number, input, place, count are {other:?}")),
        }
    }
    Ok(())
}

/// Makes so many calls from a seed; in words how often each number occurred, or the first difference.
pub fn compare(seed: u64, count: u64) -> Result<String, String> {
    let mut tally = Tally::default();
    let (mut longest, mut longest_room) = (0, 0);
    each_agreed((seed, count), FENCES, call, agreed, |call, left| {
        tally.note(&call.request, &left.lent, call.budget, answer(left.answer));
        longest = longest.max(call.request.len());
        longest_room = longest_room.max(call.lent.len());
    })?;
    print_indented(&tally.report());
    all_met((seed, count), ENOUGH, "derive calls", &tally.never_met())?;
    Ok(format!(
        "{count} derive calls of seed {seed} agree, and so do the walk calls beside them and the derivation calls on what is written; the longest request has \
         {longest} bytes, and the longest room {longest_room}"
    ))
}

/// The call with this number from a seed.
pub fn call(seed: u64, index: u64) -> Call {
    any_call(&mut Rng::new(seed, CALLS, index))
}

/// Calls of the independent program's own generators, which make about a quarter of the requests wrong in some way, and varied; a few are as long as one may be,
/// or longer.
pub fn any_call(rng: &mut Rng) -> Call {
    let drawn = |rng: &mut Rng| roomless_call(rng).into();
    let call = varied(rng, drawn, crowded_request);
    let Call { request, lent, budget } = some_longest(rng, call);
    with_room(rng, JudgeCall { request, lent, budget: budget.min(MOST), outlook: Outlook::Open }).into()
}

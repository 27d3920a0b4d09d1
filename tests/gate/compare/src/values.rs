//! Values calls made both ways, and where every fluent has two values the walk call on the request that matches, and the values call on that request said by
//! values anew; and many of them with how often each number occurred.

use std::time::Duration;

use oracle::encode::{encode_request, encode_valued};
use oracle::reader::read_valued;
use oracle::rng::Rng;
use oracle::tally::Checked;
use oracle::values::calls::values_call;
use oracle::values::damage::damage_valued;
use oracle::values::run::Tally;
use oracle::values::translate::{plain_of, spelled};
use oracle::values::Valued;

use crate::calls::{self, answer, expect, timed_and_named, told, Call, Left};
use crate::crowded::crowded;
use crate::generated::varied;
use crate::many::{all_met, each_agreed, print_indented, some_longest, ENOUGH};

/// Streams of random numbers: of the calls, and of what stands around request and lent state.
const CALLS: u64 = 61;
const FENCES: u64 = 62;

/// The exported values call, between fences, and how long it took.
pub fn timed(rng: &mut Rng, call: &Call) -> Result<(Left, Duration), String> {
    timed_and_named(rng, call, &glintstring::judge_values_packed, glintstring::Answer::unpack_values)
}

/// The independent program's.
pub fn independent(call: &Call) -> Left {
    let mut lent = call.lent.clone();
    let answer = oracle::judge_values(&call.request, &mut lent, call.budget);
    Left { answer: told(answer), lent, line: None }
}

/// What both leave, or how they differ.
fn values_agreed(rng: &mut Rng, call: &Call) -> Result<Left, String> {
    let (one, _) = timed(rng, call)?;
    expect(&one, &independent(call), "the independent program")?;
    Ok(one)
}

/// The same; and where a request matches (FORMAT 26.27), it is walked, and said by values anew and walked so, each by both programs.
pub fn agreed(rng: &mut Rng, call: &Call) -> Result<Left, String> {
    let one = values_agreed(rng, call)?;
    match_agreed(rng, call, &one)?;
    Ok(one)
}

/// Whether there is a request that matches.
fn match_agreed(rng: &mut Rng, call: &Call, one: &Left) -> Result<bool, String> {
    let Some(plain) = read_valued(&call.request).ok().and_then(|valued| plain_of(&valued)) else { return Ok(false) };
    let of = |request: Vec<u8>| Call { request, ..call.clone() };
    let matching = of(encode_request(&plain).bytes);
    let (walked, _) = calls::timed(rng, &matching).map_err(|why| format!("the walk call: {why}"))?;
    expect(&walked, &calls::independent(&matching), "the independent program").map_err(|why| format!("the walk call: {why}"))?;
    alike(one, &walked)?;
    let anew = of(encode_valued(&spelled(rng, &plain)).bytes);
    let again = values_agreed(rng, &anew).map_err(|why| format!("said by values anew: {why}"))?;
    alike(&again, &walked).map_err(|why| format!("said by values anew: {why}"))?;
    Ok(true)
}

/// Number and count are those of the walk call, and so are the lent bytes (FORMAT 26.28).
fn alike(one: &Left, walked: &Left) -> Result<(), String> {
    let [number, _, _, count] = one.answer;
    match (number, count, &one.lent) == (walked.answer[0], walked.answer[3], &walked.lent) {
        true => Ok(()),
        false => Err(format!("what is left is {one:?}, by the walk call on the request that matches {walked:?}")),
    }
}

/// Makes so many calls from a seed; in words how often each number occurred, or the first difference.
pub fn compare(seed: u64, count: u64) -> Result<String, String> {
    let mut tally = Tally::default();
    let (mut longest, mut matched) = (0, 0);
    let both = |rng: &mut Rng, call: &Call| {
        let left = values_agreed(rng, call)?;
        let matches = match_agreed(rng, call, &left)?;
        Ok((left, matches))
    };
    each_agreed((seed, count), FENCES, call, both, |call, (left, matches)| {
        tally.note(&call.request, call.budget, answer(left.answer));
        longest = longest.max(call.request.len());
        matched += u64::from(matches);
    })?;
    print_indented(&tally.report());
    println!("  requests that match one without values: {matched}");
    let missing = tally.never_met().into_iter().chain((matched == 0).then(|| "a request that matches".to_string()));
    all_met((seed, count), ENOUGH, "values calls", &missing.collect::<Vec<String>>())?;
    Ok(format!(
        "{count} values calls of seed {seed} agree; {matched} requests have two values for each fluent and are answered as the walk call answers those that match; the longest \
         request has {longest} bytes"
    ))
}

/// The call with this number from a seed.
pub fn call(seed: u64, index: u64) -> Call {
    any_call(&mut Rng::new(seed, CALLS, index))
}

/// A call of the independent program's own generators, which make about four of ten requests wrong in some way, and varied; a few requests are as long as one
/// may be, or longer.
pub fn any_call(rng: &mut Rng) -> Call {
    let drawn = |rng: &mut Rng| values_call(rng).into();
    let call = varied(rng, drawn, crowded_request);
    some_longest(rng, call)
}

/// The bytes of a crowded request said by values, of which some are damaged. In some every fluent has two values, and in some each has any number of them, so
/// that what says "is not" leaves it more.
fn crowded_request(rng: &mut Rng) -> Vec<u8> {
    let plain = crowded(rng);
    let draft = spelled(rng, &plain);
    if rng.chance(40) {
        return damage_valued(rng, &draft).bytes;
    }
    let more = rng.chance(50);
    let values = draft.values.iter().map(|&two| if more { rng.byte(two, glintstring::MOST_VALUES as u8) } else { two }).collect();
    encode_valued(&Valued { values, ..draft }).bytes
}

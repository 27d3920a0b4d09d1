//! Many calls made both ways.

use std::fmt::Display;

use oracle::reader::REQUEST_LIMIT;
use oracle::rng::Rng;

use crate::calls::{answer, Call, Left};

/// From so many calls on, all that has to occur is looked for; of walk calls from more on.
pub const ENOUGH: u64 = 20_000;

/// Makes so many calls from a seed, with this stream of random numbers for what stands around their inputs, and notes what each leaves; in words
/// the first difference.
pub fn each_agreed<C: Display, L>(
    (seed, count): (u64, u64),
    fences: u64,
    call: impl Fn(u64, u64) -> C,
    agreed: impl Fn(&mut Rng, &C) -> Result<L, String>,
    mut note: impl FnMut(&C, L),
) -> Result<(), String> {
    for index in 0..count {
        let call = call(seed, index);
        let left = agreed(&mut Rng::new(seed, fences, index), &call);
        note(&call, left.map_err(|why| format!("seed {seed}, call {index}: {why}; {call}"))?);
    }
    Ok(())
}

/// The same of calls that take a request and leave an answer, which is noted with request and budget; the length of the longest request.
pub fn longest_agreed(
    seeded: (u64, u64),
    fences: u64,
    call: impl Fn(u64, u64) -> Call,
    agreed: impl Fn(&mut Rng, &Call) -> Result<Left, String>,
    mut note: impl FnMut(&[u8], u32, oracle::Answer),
) -> Result<usize, String> {
    let mut longest = 0;
    each_agreed(seeded, fences, call, agreed, |call, left| {
        note(&call.request, call.budget, answer(left.answer));
        longest = longest.max(call.request.len());
    })?;
    Ok(longest)
}

/// Prints the lines of a report, each indented.
pub fn print_indented(report: &str) {
    for line in report.lines() {
        println!("  {line}");
    }
}

/// The call; of a few the request is as long as one may be, or longer.
pub fn some_longest(rng: &mut Rng, mut call: Call) -> Call {
    if rng.below(500) == 0 {
        let length = *rng.pick(&[REQUEST_LIMIT - 1, REQUEST_LIMIT, REQUEST_LIMIT + 1, 20_000]);
        call.request.resize(length, rng.byte(0, 3));
    }
    call
}

/// In words what has to occur and is missing, where so many calls are enough.
pub fn all_met((seed, count): (u64, u64), enough: u64, what: &str, missing: &[String]) -> Result<(), String> {
    match count < enough || missing.is_empty() {
        true => Ok(()),
        false => Err(format!("seed {seed}: never in {count} {what}: {}", missing.join(", "))),
    }
}
